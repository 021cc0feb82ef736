//! The leaf cases.
use super::{block_bytes, bytes_words, decimals, finality_text, hex, made, BLOCK};
use crate::{
    calls::{finality_words, Leaf, Lent},
    record::Settings,
    stored::leaves::{handed, StoredCase},
};
use std::fmt::Write;

pub fn text(table: &[Settings], cases: &[StoredCase]) -> String {
    let mut text = format!("# {} leaf cases, {}\n", cases.len(), made());
    text += "# settings NUMBER = the nineteen numbers of document 01, in its order\n";
    text += "# LEAF inputs = refusal, then what is answered where it is 0\n";
    text += "# inputs: sNUMBER, roots as bytes, finality, numbers, [one validator's numbers, or the registry's]; bytes are x and hexadecimal\n";
    for (i, s) in table.iter().enumerate() {
        let _ = writeln!(text, "settings {i} = {}", decimals(s));
    }
    let mut last = None;
    for c in cases {
        let leaf = c.case.leaf;
        if last != Some(leaf) {
            let _ = writeln!(text, "# {}: {} = refusal {}", leaf.shape().name, handed(leaf), leaf.shape().answer);
            last = Some(leaf);
        }
        let _ = writeln!(text, "{}", case_text(c));
    }
    text
}

fn case_text(c: &StoredCase) -> String {
    let shape = c.case.leaf.shape();
    let mut tokens = vec![shape.name.to_string()];
    if shape.settings {
        tokens.push(format!("s{}", c.settings));
    }
    if shape.roots {
        tokens.push(hex(&c.case.roots));
    }
    if shape.finality {
        tokens.push(finality_text(&c.case.finality));
    }
    tokens.extend(c.case.numbers.iter().map(u64::to_string));
    if shape.lent != Lent::Nothing {
        tokens.push(format!("[{}]", decimals(&c.case.registry)));
    }
    tokens.push(format!("= {}", c.answer.refusal));
    if c.answer.refusal == 0 {
        tokens.push(answer_text(c.case.leaf, &c.answer.words));
    }
    tokens.join(" ")
}

fn answer_text(leaf: Leaf, words: &[u64]) -> String {
    let bytes = |words: &[u64]| hex(&words.iter().flat_map(|w| w.to_le_bytes()).collect::<Vec<_>>());
    match leaf {
        Leaf::GetBlockRootAtSlot | Leaf::GetBlockRoot => bytes(words),
        Leaf::WeighJustificationAndFinalization => {
            let checkpoints = words[2..].chunks(5).map(|c| format!("{} {}", c[0], bytes(&c[1..]))).collect::<Vec<_>>();
            format!("{} {} {}", words[0], words[1], checkpoints.join(" "))
        }
        _ => decimals(words),
    }
}

/// Leaf, words in all, settings, roots, finality, numbers, entry or registry, refusal, answer.
fn case_words(c: &StoredCase, settings: u64) -> Vec<u64> {
    let shape = c.case.leaf.shape();
    let mut words = vec![c.case.leaf as u64, 0];
    if shape.settings {
        words.push(settings);
    }
    if shape.roots {
        words.extend(bytes_words(&c.case.roots));
    }
    if shape.finality {
        words.extend(finality_words(&c.case.finality));
    }
    words.extend(&c.case.numbers);
    if shape.lent != Lent::Nothing {
        words.push(c.case.registry.len() as u64);
        words.extend(&c.case.registry);
    }
    words.push(c.answer.refusal);
    words.extend(&c.answer.words);
    words[1] = words.len() as u64;
    words
}

/// A block: number of cases, number of settings, the settings, the cases.
pub fn blocks(table: &[Settings], cases: &[StoredCase]) -> Vec<u8> {
    let mut out = Vec::new();
    let mut rest = cases;
    while !rest.is_empty() {
        let mut used: Vec<usize> = Vec::new();
        let mut body: Vec<u64> = Vec::new();
        let mut taken = 0;
        for c in rest {
            let place = used.iter().position(|&s| s == c.settings);
            let needs_settings = c.case.leaf.shape().settings && place.is_none();
            let words = case_words(c, place.unwrap_or(used.len()) as u64);
            let settings = used.len() + usize::from(needs_settings);
            if 8 * (2 + 19 * settings + body.len() + words.len()) > BLOCK {
                break;
            }
            if needs_settings {
                used.push(c.settings);
            }
            body.extend(words);
            taken += 1;
        }
        let mut words = vec![taken as u64, used.len() as u64];
        used.iter().for_each(|&s| words.extend(table[s]));
        words.extend(body);
        out.extend(block_bytes(&words));
        rest = &rest[taken..];
    }
    out
}
