//! Wrong lines of a list of plays: each field of an output wrong by itself, an output where a refusal is
//! due and the other way round, another refusal, outputs that are cut short or too long, and outputs with
//! `hard` the other way.
use crate::plays::{causes, envelope, expected, full_with, output, over_all, EXAMPLE};
use crate::printed::{of_play, Verdict};
use crate::random::Random;
use crate::text::shown;
use crate::wrong::{fields_wrong, LONG};
use std::collections::BTreeSet;
use std::io::{Result, Write};

/// Outputs in the place of a right one.
fn wrong_outputs(right: &str) -> Vec<String> {
    let mut all = fields_wrong(right);
    all.push(format!("{right}0"));
    all.push(right[..right.len() - 1].into());
    if right.starts_with('#') {
        all.push(right.rsplit_once(' ').unwrap().0.into());
        all.push(format!("{right} 0"));
    } else {
        // another first byte, and what stands between the fields
        all.push(format!("x{}", &right[1..]));
        all.push(right.replacen('|', " ", 1));
        all.push(right.replacen(' ', "|", 1));
        all.push(format!("{right}|"));
        all.push(format!("{right}3 3F400000|"));
        let lines: Vec<&str> = right.split_inclusive('|').collect();
        all.push(lines[..lines.len() - 1].concat());
        all.push(lines[1..].concat());
    }
    if right.starts_with("refusal") {
        all.push("sample value|".into());
        all.push("sample value|0 00000000|".into());
    } else {
        all.push("refusal line|9 1|".into());
        all.push("refusal line|13 0|".into());
    }
    all.retain(|wrong| wrong != right && !wrong.is_empty());
    all
}

/// The example, one with no sample, an input for each refusal, and long outputs.
fn inputs(r: &mut Random) -> Vec<Vec<u8>> {
    let none = EXAMPLE.replace("4008000000000000", "0000000000000000");
    let mut all = vec![EXAMPLE.as_bytes().to_vec(), none.into_bytes()];
    let mut seen = BTreeSet::new();
    for input in causes() {
        let printed = output(&input);
        if printed.starts_with("refusal") && seen.insert(printed) {
            all.push(input);
        }
    }
    all.push(full_with(r, 257, ""));
    let e = envelope(r, 3);
    all.push(over_all(&e, 12));
    all.push(over_all(&e, 2500));
    all
}

/// The example with a step that passes a maximum, `hard` off and on, each with the other's output.
fn hard_turned() -> [String; 2] {
    let with = |hard: &str| EXAMPLE.replace("0 1 - - - 0", &format!("0 1 - 3F000000 3F200000 {hard}"));
    let line = |a: &str, b: &str| {
        let wrong = expected(&output(with(b).as_bytes()));
        format!("{} => {wrong}", shown(with(a).as_bytes()))
    };
    [line("0", "1"), line("1", "0")]
}

/// Writes the wrong lines of a list of plays. One of the lines is too long.
pub fn write(out: &mut impl Write, seed: u64) -> Result<()> {
    let mut r = Random(seed);
    let mut all = vec![];
    for input in inputs(&mut r) {
        let right = expected(&output(&input));
        let input = shown(&input);
        let most = if input.len() > 2000 { 4 } else { usize::MAX };
        let wrong = wrong_outputs(&right).into_iter().take(most);
        all.extend(wrong.map(|wrong| format!("{input} => {wrong}")));
        all.push(input.clone());
        all.push(format!("{input} =>{right}"));
        all.push(format!("{input} = {right}"));
    }
    all.extend(hard_turned());
    // inputs that are no bytes: a careless reading takes each for one byte or none, which is refused so
    for bad in ["\\G0", "\\0G", "\\"] {
        all.push(format!("{bad} => refusal line|9 1|"));
    }
    all.push("=> refusal line|9 1|".into());
    let middle = all.len() / 2;
    all.insert(middle, "0".repeat(LONG));
    for line in all {
        assert!(of_play(&line) != Verdict::Right, "{line}");
        writeln!(out, "{line}")?;
    }
    Ok(())
}
