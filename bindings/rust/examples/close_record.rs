//! Closes the record file on standard input and prints the close, or `refused` and the number. Exit status: 0 closed, 1 refused,
//! with the number and its words on standard error, 2 could not read or write.
//!
//!     tools/record write samples/example.json - | cargo run --example close_record
use altair_close::{listing_head, listing_line, Header, Record, Refusal};
use std::io::{self, Read, Write};
use std::process::ExitCode;

fn listing(file: &[u8]) -> Result<String, Refusal> {
    let opening = Record::read(file)?;
    let closed = opening.close()?;
    let head = listing_head(&opening.settings, opening.finality.slot, &closed.finality, &opening.registry)?;
    let raised = head.raised;
    let mut text = format!(
        "epoch {} justified {} finalized {} bits {} charged {} {} {} {}\n",
        head.epoch,
        head.justified_epoch,
        head.finalized_epoch,
        head.justification_bits,
        head.charged,
        raised.active as u8,
        raised.previous as u8,
        raised.current as u8,
    );
    for index in 0..opening.validators().count() as u64 {
        let line = listing_line(&opening.registry, &closed.registry, index)?;
        text += &format!(
            "{} {} {} {} {} {}\n",
            line.index,
            line.opening_balance,
            line.closing_balance,
            line.effective_balance,
            line.inactivity_score,
            line.net_change,
        );
    }
    Ok(text)
}

/// The longest file that the library reads: of a longer input a byte more is read, and it is refused whatever follows.
const LONGEST: Header = Header { version: 2, validators: 1 << 24, roots: 1 << 16, slashings: 1 << 16 };

/// What is wrong, where somebody can be told.
fn said(words: impl std::fmt::Display) {
    let _ = writeln!(io::stderr(), "close_record: {words}");
}

fn run() -> io::Result<u8> {
    let mut file = Vec::new();
    io::stdin().take(LONGEST.file_length() as u64 + 1).read_to_end(&mut file)?;
    let (text, refused) = match listing(&file) {
        Ok(text) => (text, None),
        Err(refusal) => (format!("refused {}\n", refusal.number()), Some(refusal)),
    };
    io::stdout().write_all(text.as_bytes())?;
    io::stdout().flush()?;
    refused.iter().for_each(said);
    Ok(refused.is_some() as u8)
}

fn main() -> ExitCode {
    let code = run().unwrap_or_else(|error| {
        said(error);
        2
    });
    ExitCode::from(code)
}
