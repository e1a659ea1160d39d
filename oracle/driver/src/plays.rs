//! Inputs of the program, and what it prints for them: the Rust's samples, with the signs of zeros
//! that document 01 fixes.
use crate::random::Random;
use crate::reader::read_play;
use crate::records::{AutomationPoint, CurveType, Envelope};
use crate::rules::{bare, value_at};
use crate::sheets::{spoiled, NAMES, POINTS, POINT_NAMES, SETTINGS};
use crate::text::{double, sheet, shown, single};
use std::io::{Result, Write};
use std::path::Path;

pub const EXAMPLE: &str = "target enabled min max step hard
0 1 - - - 0
time position value curve cp1 cp2
0000000000000000 - 00000000 00 - -
4010000000000000 - 3F800000 00 - -
rate duration
3FF0000000000000 4008000000000000
";

fn refusal(number: u32, line: usize) -> String {
    format!("refusal line\n{number} {line}\n")
}

/// What the program prints.
pub fn output(input: &[u8]) -> String {
    let p = match read_play(input) {
        Ok(p) => p,
        Err((number, line)) => return refusal(number, line),
    };
    let count = (p.duration * p.rate) as u64;
    if count > u32::MAX as u64 {
        return refusal(13, 0);
    }
    let raw = bare(&p.envelope);
    let mut out = String::from("sample value\n");
    for i in 0..count {
        let v = value_at(&p.envelope, &raw, i as f64 / p.rate).map_or(0.0, |v| v.0);
        out += &format!("{i} {}\n", single(v));
    }
    out
}

fn input(e: &Envelope, rate: f64, duration: f64) -> Vec<u8> {
    format!(
        "{}rate duration\n{} {}\n",
        sheet(e),
        double(rate),
        double(duration)
    )
    .into_bytes()
}

/// Places in the example with a digit: the target, enabled, hard, and digits of a time, a value, a curve and
/// the rate.
const DIGITS: [usize; 7] = [33, 35, 43, 79, 98, 108, 163];
/// Other places: the names' last space and letter, a space, the one before hard, a line's end, a position's
/// `-`, a control's.
const OTHERS: [usize; 7] = [27, 31, 34, 42, 44, 96, 110];

/// 01's example, what is left of it after each byte, each byte at these places, and a line for each
/// cause of a refusal.
fn fixed(places: &[usize]) -> Vec<Vec<u8>> {
    let example = EXAMPLE.as_bytes();
    let mut all: Vec<Vec<u8>> = (0..=example.len()).map(|n| example[..n].to_vec()).collect();
    for &place in places {
        for b in 0..=255 {
            let mut changed = example.to_vec();
            changed[place] = b;
            all.push(changed);
        }
    }
    all.extend(causes());
    all
}

/// The example with a line for each cause of a refusal, and with something after it.
pub fn causes() -> Vec<Vec<u8>> {
    let mut all = vec![];
    let lines: Vec<&str> = EXAMPLE.lines().collect();
    let mut with = |others: &[(usize, &str)]| {
        let mut changed = lines.clone();
        for (k, line) in others {
            changed[k - 1] = line;
        }
        all.push((changed.join("\n") + "\n").into_bytes());
    };
    let causes: [(usize, &[&str]); 4] = [(1, &NAMES), (2, &SETTINGS), (3, &POINT_NAMES), (5, &POINTS)];
    for (k, list) in causes {
        for line in list {
            with(&[(k, line)]);
        }
    }
    // the first line counts, whatever stands on a later one
    with(&[(4, "0000000000000000 - 7F800000 00 - -"), (5, "x")]);
    with(&[(4, "0000000000000000 - 00000000 06 - -"), (5, "x")]);
    with(&[(5, "0000000000000000 - 00000000 00 - -"), (6, "x")]);
    with(&[(5, "7FF0000000000000 - 00000000 00 - -"), (7, "x")]);
    for block in [
        "7FF0000000000000 4008000000000000",
        "3FF0000000000000 FFF0000000000000",
        "7FF8000000000000 7FF8000000000000",
        "BFF0000000000000 C008000000000000",
        "BFF0000000000000 4008000000000000",
        "0000000000000000 4008000000000000",
        "8000000000000000 C008000000000000",
        "40E7700000000000 4202A05F20000000",
        "3FF0000000000000 41F0000000000000",
        "3FF0000000000000",
        "- 4008000000000000",
        "3FF0000000000000  4008000000000000",
        "3FF0000000000000 4008000000000000 ",
        "3FF0000000000000 400800000000000",
        "7FF0000000000000 400800000000000",
        "7FF0000000000000 4008000000000000 ",
    ] {
        with(&[(7, block)]);
    }
    for names in [
        "rate duration ",
        "Rate duration",
        "rate duration\r",
        "rate  duration",
    ] {
        with(&[(6, names)]);
    }
    for more in ["\n", "x", "3FF0000000000000 4008000000000000\n"] {
        all.push([EXAMPLE.as_bytes(), more.as_bytes()].concat());
    }
    all
}

/// Long lines, at the front and in the place of a point.
fn long() -> [Vec<u8>; 2] {
    let line = vec![b'0'; 1 << 20];
    [line.clone(), [&EXAMPLE.as_bytes()[..79], &line].concat()]
}

/// An envelope of so many points, of every curve.
pub fn envelope(r: &mut Random, count: u64) -> Envelope {
    let mut e = Envelope::new(r.below(1 << 32) as u32);
    e.rust.enabled = !r.once_in(16);
    let mut time = (r.unit() - 0.5) * 2.0;
    for _ in 0..count {
        let value = (r.unit() as f32 - 0.25) * 100.0;
        let position = r.once_in(3).then(|| r.below(1 << 20));
        e.rust.points.push(AutomationPoint {
            time,
            sample_position: position,
            value,
            curve: r.curve(),
        });
        time += r.unit() + 0.001;
    }
    if r.once_in(3) {
        e.rust.min_value = Some(r.unit() as f32 * 20.0);
    }
    if r.once_in(3) {
        e.rust.max_value = Some(r.unit() as f32 * 60.0);
    }
    if r.once_in(2) {
        e.rust.step_size = Some(r.unit() as f32 * 5.0 - 0.5);
    }
    e.hard = r.once_in(2);
    e
}

/// An input of so many samples, from time 0 to after the last point.
pub fn over_all(e: &Envelope, samples: u64) -> Vec<u8> {
    let end = e.rust.points.last().map_or(0.0, |p| p.time).abs() + 1.0;
    input(e, samples as f64 / end, end)
}

/// A random play of 1 to 256 points, of every curve, or of an envelope with edge cases.
fn random(r: &mut Random) -> Vec<u8> {
    if r.once_in(2) {
        let (e, rate) = (r.envelope(), r.rate());
        let mut duration = r.duration(rate);
        let count = (duration * rate) as u64;
        if (10_000..=u32::MAX as u64).contains(&count) {
            duration = 100.0 / rate;
        }
        return input(&e, rate, duration);
    }
    let count = if r.once_in(3) {
        1 + r.below(256)
    } else {
        1 + r.below(12)
    };
    let e = envelope(r, count);
    let samples = if r.once_in(4) {
        1000 + r.below(5000)
    } else {
        r.below(200)
    };
    over_all(&e, samples)
}

/// A sheet of exactly so many points, and what follows them.
pub fn full_with(r: &mut Random, points: u64, rest: &str) -> Vec<u8> {
    let mut e = Envelope::new(7);
    e.hard = r.once_in(2);
    for i in 0..points {
        e.rust.points.push(AutomationPoint {
            time: i as f64,
            sample_position: Some(i),
            value: r.unit() as f32,
            curve: r.curve(),
        });
    }
    (sheet(&e) + rest).into_bytes()
}

/// Sheets of so many points, each with a block and with each other end.
fn around(r: &mut Random, counts: std::ops::RangeInclusive<u64>) -> Vec<Vec<u8>> {
    const BLOCK: &str = "rate duration\n4024000000000000 4059000000000000\n";
    let mut all = Vec::new();
    for points in counts {
        for rest in [
            BLOCK,
            "",
            "\n",
            "rate duration",
            &BLOCK[..30],
            "x\n",
            // beside the names without an end, after 256 points
            "rate duratio",
            "rate duration\r",
            "rate duration\r\n",
            "rate duration ",
            "rate durations",
            "Rate duration",
            "r",
            "rate duration\n",
        ] {
            all.push(full_with(r, points, rest));
        }
    }
    all
}

/// The longest input that plays, 16,541 bytes, of whose samples `hard` decides some; with something after it,
/// and cut short.
fn longest(r: &mut Random) -> Vec<Vec<u8>> {
    let mut e = Envelope::new(u32::MAX);
    (e.rust.min_value, e.rust.max_value) = (Some(0.25), Some(0.75));
    (e.rust.step_size, e.hard) = (Some(0.5), true);
    e.rust.points.extend((0..256).map(|i| AutomationPoint {
        time: i as f64,
        sample_position: Some(i),
        value: r.unit() as f32,
        curve: CurveType::Bezier(r.unit() as f32, r.unit() as f32),
    }));
    let whole = input(&e, 1.0, 20.0);
    assert!(whole.len() == 16_541);
    let mut all: Vec<Vec<u8>> = ["", "x", "\n", "xx"]
        .iter()
        .map(|rest| [&whole[..], rest.as_bytes()].concat())
        .collect();
    all.extend([1, 2, 34, 35, 36].map(|cut| whole[..whole.len() - cut].to_vec()));
    all
}

/// Whether it plays more samples than there is room for, as one with a changed digit of its rate may.
fn too_long(input: &[u8]) -> bool {
    let many = 100_000..=u32::MAX as u64;
    read_play(input).is_ok_and(|p| many.contains(&((p.duration * p.rate) as u64)))
}

/// Writes n.in and n.out, from 1 on: the fixed inputs, those around 256 points, the longest, and so many
/// random ones.
pub fn write(folder: &Path, seed: u64, count: u64) -> Result<()> {
    let mut r = Random(seed);
    let mut all = fixed(&[DIGITS.as_slice(), &OTHERS].concat());
    all.extend(long());
    all.extend(around(&mut r, 255..=258));
    all.extend(longest(&mut r));
    for _ in 0..count {
        let input = random(&mut r);
        let changed = if r.once_in(3) {
            spoiled(&mut r, input.clone())
        } else {
            input.clone()
        };
        all.push(if too_long(&changed) { input } else { changed });
    }
    for (i, input) in all.iter().enumerate() {
        std::fs::write(folder.join(format!("{}.in", i + 1)), input)?;
        std::fs::write(folder.join(format!("{}.out", i + 1)), output(input))?;
    }
    Ok(())
}

// ---- a list of plays, a line each

/// Bytes as the digits of a number of base 256, modulo the largest prime below 2^55.
fn sum(bytes: &[u8]) -> u64 {
    bytes
        .iter()
        .fold(0, |sum, b| (sum * 256 + u64::from(*b)) % ((1 << 55) - 55))
}

/// An output in a line; a long one by `#`, its length and its sum.
pub fn expected(output: &str) -> String {
    const LONG: usize = 400;
    let bytes = output.as_bytes();
    if bytes.len() <= LONG {
        return shown(bytes);
    }
    format!("# {:016X} {:016X}", bytes.len(), sum(bytes))
}

/// Writes lines `input => output`: the fixed inputs with each byte at a digit's place, those around 256
/// points, and the longest.
pub fn fixed_list(out: &mut impl Write, seed: u64) -> Result<()> {
    let (mut r, mut all) = (Random(seed), fixed(&DIGITS));
    all.extend(around(&mut r, 256..=257));
    all.extend(longest(&mut r));
    lines(out, all)
}

/// Writes lines `input => output`: an input for each number of points up to `points`, with some eight
/// samples for each.
pub fn list(out: &mut impl Write, seed: u64, points: u64) -> Result<()> {
    let mut r = Random(seed);
    let mut all = vec![];
    for count in 0..=points {
        let e = envelope(&mut r, count);
        let samples = 8 * count + r.below(100);
        all.push(over_all(&e, samples));
    }
    lines(out, all)
}

fn lines(out: &mut impl Write, inputs: Vec<Vec<u8>>) -> Result<()> {
    for input in inputs {
        writeln!(out, "{} => {}", shown(&input), expected(&output(&input)))?;
    }
    Ok(())
}
