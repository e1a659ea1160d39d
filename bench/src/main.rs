//! Measures the port's functions beside the Rust's, on the same inputs in the same run. bench/run
//! builds both sides and starts this program; bench/README.md says what the figures mean.
//!
//!     bench machine                    the processor, and the Rust's compiler
//!     bench calls                      a line for each figure of one call
//!     bench sheets                     the same for the figures on sheets
//!     bench rows|edits|joins [PART]    a row for each figure of a table, or for those with PART in their name
//!     bench pass NAME SIDE             one pass of one side of a figure, for callgrind to count
//!     bench turns                      each side of each figure with a loop, 1, 2 and 3 turns, for callgrind to count
//!     bench symbols                    the functions that have these loops
#[macro_use]
mod figure;
mod inputs;
mod records;
mod sheets;

use figure::{Figure, Side, Sizes};
use rust_side as _;

/// The figures of a function of one number.
fn calls() -> Vec<Figure> {
    vec![
        calls!("the call alone", rattle_echo, rust_echo, f64 => f64, inputs::fractions()),
        calls!("f64 to f32, fractions", rattle_narrow, rust_narrow, f64 => f32, inputs::fractions()),
        calls!("f64 to f32, any", rattle_narrow, rust_narrow, f64 => f32, inputs::doubles()),
        calls!("u64 to f32, below 2^24", rattle_u64_to_f32, rust_u64_to_f32, u64 => f32, inputs::words(24)),
        calls!("u64 to f32, any", rattle_u64_to_f32, rust_u64_to_f32, u64 => f32, inputs::words(64)),
        calls!("f64 to u64", rattle_f64_to_u64, rust_f64_to_u64, f64 => u64, inputs::scaled(1e6)),
        calls!("round", rattle_round, rust_round, f64 => f64, inputs::scaled(1e3)),
        calls!("roundf", rattle_roundf, rust_roundf, f32 => f32, inputs::singles(inputs::scaled(1e3))),
        calls!("sqrtf, fractions", rattle_sqrtf, rust_sqrtf, f32 => f32, inputs::singles(inputs::fractions())),
        calls!("Linear", rattle_linear, rust_linear, f32 => f32, inputs::singles(inputs::fractions())),
        calls!("CubicInOut", rattle_cubic_in_out, rust_cubic_in_out, f32 => f32, inputs::singles(inputs::fractions())),
        calls!("QuintInOut", rattle_quint_in_out, rust_quint_in_out, f32 => f32, inputs::singles(inputs::fractions())),
        calls!("Bounce", rattle_bounce, rust_bounce, f32 => f32, inputs::singles(inputs::fractions())),
        calls!("Back", rattle_back, rust_back, f32 => f32, inputs::singles(inputs::fractions())),
        calls!("Bezier", rattle_bezier, rust_bezier, f32 => f32, inputs::singles(inputs::fractions())),
        calls!("Logarithmic", rattle_logarithmic, rust_logarithmic, f32 => f32, inputs::singles(inputs::fractions())),
        calls!("Circular", rattle_circular, rust_circular, f32 => f32, inputs::singles(inputs::fractions())),
    ]
}

/// The first line of /proc/cpuinfo of that name.
fn processor(info: &str, name: &str) -> String {
    info.lines()
        .filter_map(|line| line.split_once(':'))
        .find(|(key, _)| key.trim() == name)
        .map_or("?".to_string(), |(_, value)| value.trim().to_string())
}

fn machine() {
    let info = std::fs::read_to_string("/proc/cpuinfo").unwrap_or_default();
    let of = |name| processor(&info, name);
    println!(
        "{}, family {}, model {}; {}",
        of("model name"),
        of("cpu family"),
        of("model"),
        env!("BENCH_RUSTC")
    );
}

/// The figures whose turns are one call's.
fn loops() -> Vec<Figure> {
    let mut all = records::figures();
    for sizes in records::edits().into_iter().chain(records::joins()) {
        all.extend(sizes.figures);
    }
    all.extend(sheets::figures());
    all
}

/// How many instructions a turn adds is read off what callgrind counts in these.
fn turns() {
    let all = loops();
    // a pass that has what the program did before it
    all[0].rattle.pass(1);
    for f in all {
        for (name, side) in [("rattle", &f.rattle), ("rust", &f.rust)] {
            for turns in [1, 2, 3] {
                side.pass(turns);
                println!("{}\t{name}\t{turns}", f.name);
            }
        }
    }
}

fn symbols() {
    let mut names: Vec<&str> = loops()
        .iter()
        .flat_map(|f| [f.rattle.symbol, f.rust.symbol])
        .collect();
    names.sort();
    names.dedup();
    names.iter().for_each(|name| println!("{name}"));
}

fn sizes(rows: Vec<Sizes>, part: &str) {
    rows.iter()
        .filter(|r| r.name.contains(part))
        .for_each(Sizes::print_row);
}

fn main() {
    let words: Vec<String> = std::env::args().skip(1).collect();
    let words: Vec<&str> = words.iter().map(String::as_str).collect();
    let part = words.get(1).copied().unwrap_or("");
    match words[..] {
        ["machine"] => machine(),
        ["calls"] => calls().iter().for_each(Figure::print_call),
        ["sheets"] => sheets::figures().iter().for_each(Figure::print_call),
        ["rows"] | ["rows", _] => records::figures()
            .iter()
            .filter(|f| f.name.contains(part))
            .for_each(Figure::print_row),
        ["edits"] | ["edits", _] => sizes(records::edits(), part),
        ["joins"] | ["joins", _] => sizes(records::joins(), part),
        ["pass", name, side] => calls()
            .iter()
            .chain(&loops())
            .filter(|f| f.name == name)
            .for_each(|f| f.side(side).pass(f.turns)),
        ["symbols"] => symbols(),
        ["turns"] => turns(),
        _ => panic!(
            "bench machine | calls | sheets | rows|edits|joins [PART] | pass NAME SIDE | symbols | turns"
        ),
    }
}
