//! The program in Rust: the same input, the same output, with a buffered writer.
//!
//!     rust_player                    plays standard input
//!     rust_player --sheet SAMPLES    prints an input: 256 points, every curve in turn, over 100 seconds
#[path = "../../../oracle/driver/src/reader.rs"]
#[allow(dead_code)]
mod reader;
#[path = "../../../oracle/driver/src/records.rs"]
#[allow(dead_code)]
mod records;

use records::Envelope;
use std::io::{stdin, stdout, BufWriter, Read, Result, Write};

fn main() -> Result<()> {
    let mut out = BufWriter::with_capacity(20_480, stdout().lock());
    let words: Vec<String> = std::env::args().skip(1).collect();
    match &words[..] {
        [] => play(&mut out)?,
        [mode, samples] if mode == "--sheet" => sheet(&mut out, samples.parse().expect("a number"))?,
        _ => panic!("rust_player [--sheet SAMPLES]"),
    }
    out.flush()
}

fn play(out: &mut impl Write) -> Result<()> {
    let mut input = Vec::new();
    stdin().lock().read_to_end(&mut input)?;
    let p = match reader::read_play(&input) {
        Ok(p) => p,
        Err((number, line)) => return writeln!(out, "refusal line\n{number} {line}"),
    };
    let count = (p.duration * p.rate) as u64;
    if count > u32::MAX as u64 {
        return writeln!(out, "refusal line\n13 0");
    }
    writeln!(out, "sample value")?;
    for i in 0..count {
        let v = value_at(&p.envelope, i as f64 / p.rate).unwrap_or(0.0);
        writeln!(out, "{i} {:08X}", v.to_bits())?;
    }
    Ok(())
}

/// The Rust's own lookup; with `hard` on its limits again.
fn value_at(e: &Envelope, time: f64) -> Option<f32> {
    let mut v = e.rust.get_value_at(time)?;
    if e.hard {
        v = e.rust.min_value.map_or(v, |min| v.max(min));
        v = e.rust.max_value.map_or(v, |max| v.min(max));
    }
    Some(v)
}

fn sheet(out: &mut impl Write, samples: u32) -> Result<()> {
    writeln!(
        out,
        "target enabled min max step hard\n0 1 - - - 0\ntime position value curve cp1 cp2"
    )?;
    for i in 0..256u32 {
        let time = f64::from(i) * 100.0 / 255.0;
        let value = (i * 37 % 101) as f32 / 10.0;
        let code = [
            0, 1, 2, 3, 4, 5, 7, 8, 9, 10, 11, 12, 13, 14, 15, 16, 17, 18, 19, 20, 21,
        ][i as usize % 21];
        let controls = if code == 5 { "3E800000 3F400000" } else { "- -" };
        writeln!(
            out,
            "{:016X} - {:08X} {code:02} {controls}",
            time.to_bits(),
            value.to_bits()
        )?;
    }
    let rate = f64::from(samples) / 100.0;
    writeln!(
        out,
        "rate duration\n{:016X} {:016X}",
        rate.to_bits(),
        100f64.to_bits()
    )
}
