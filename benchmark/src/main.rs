//! How long the library's close takes, beside one copy of the registry, a plain Rust close and the Rust of ethereum-consensus, all in
//! one run on the same buffers. docs/BENCHMARKS.md says what was found.
#[cfg(judged)]
use reference::{random, record};
#[cfg(not(judged))]
#[allow(dead_code)]
#[path = "../../reference/src/random.rs"]
mod random;
#[cfg(not(judged))]
#[allow(dead_code)]
#[path = "../../reference/src/record.rs"]
mod record;

#[allow(dead_code)]
#[path = "../../compare/src/convert.rs"]
mod convert;
mod deneb;
mod electra;
mod measure;
mod plain;
mod plot;
mod scenarios;
mod shelf;
mod stack;
mod table;

use altair_close as types;
use scenarios::SCENARIOS;
use std::path::Path;

const SIZES: [usize; 5] = [1_000, 10_000, 100_000, 1_000_000, 4_000_000];

fn main() {
    #[cfg(judged)]
    reference::judge::install_hook();
    let mut args = std::env::args().skip(1);
    let folder = args.next().expect("benchmark FOLDER [LARGEST | electra]: table.md and plot.svg are written to FOLDER");
    let asked = args.next();
    table::machine();
    if asked.as_deref() == Some("electra") {
        return println!("\n{}", electra::text(&electra::rows(1_000_000)));
    }
    let largest = asked.map_or(usize::MAX, |n| n.replace(['_', ','], "").parse().expect("a number of validators"));
    let mut rows = Vec::new();
    for scenario in SCENARIOS {
        let mut before: Option<measure::Row> = None;
        for n in SIZES.into_iter().filter(|&n| n <= largest) {
            let row = measure::row(scenario, n, before.as_ref());
            println!("{}", table::line(&row));
            before = Some(row.clone());
            rows.push(row);
        }
    }
    let deneb = deneb::text(&deneb::row(largest.min(1_000_000)));
    let electra = electra::text(&electra::rows(largest.min(1_000_000)));
    let shelf = shelf::text(&shelf::row());
    let text = [table::markdown(&rows, stack::deepest()), shelf, deneb, electra].join("\n");
    println!("\n{text}");
    let write = |name: &str, text: String| {
        let file = Path::new(&folder).join(name);
        std::fs::write(&file, text).unwrap_or_else(|e| panic!("{}: {e}", file.display()));
    };
    write("table.md", text);
    write("plot.svg", plot::svg(&rows));
}
