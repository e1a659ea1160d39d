//! What the programs that replay lists print for a list, computed from the list alone: a line for each
//! line that is reported, and the tally at the end and at each comment that begins with `##`.
use crate::forms::{is_call, signature};
use crate::plays::{expected, output};
use crate::reply::reply;
use crate::session::Sessions;
use crate::text::{unshown, Registers, Words};
use std::io::{BufRead, Result, Write};

/// So many bytes are too many for a line that is no comment.
const TOO_LONG: usize = 131_072;

#[derive(Clone, Copy, PartialEq)]
pub enum Verdict {
    Right,
    Differs,
    NoLine,
}

/// Which lines are none: too long, of another session, their call is none, or an edit whose arguments aren't
/// all there.
fn is_no_line(line: &str) -> bool {
    if line.len() >= TOO_LONG {
        return true;
    }
    let call = line.split(" => ").next().unwrap_or("");
    let words: Vec<&str> = call.split(' ').collect();
    match words[..] {
        // the replay has one session open, `s`
        ["session", name, ..] if name != "s" => true,
        ["session", _, "len", _, ref rest @ ..] => !rest.first().is_some_and(|word| is_call(word)),
        ["session", ref rest @ ..] => !rest.get(1).is_some_and(|word| is_call(word)),
        [op, ref rest @ ..] => match signature(op) {
            Some((kinds, 'e' | 'c')) => !stand(kinds, rest),
            other => other.is_none(),
        },
        [] => true,
    }
}

/// Whether the arguments stand there, whatever comes after them.
fn stand(kinds: &str, words: &[&str]) -> bool {
    let registers = Registers::new();
    let mut words = Words::new(words, &registers);
    kinds.chars().all(|kind| words.argument(kind).is_ok())
}

/// What is said of a line `call => answer`.
pub fn of_call(line: &str, sessions: &mut Sessions) -> Verdict {
    if is_no_line(line) {
        return Verdict::NoLine;
    }
    let Some((call, given)) = line.split_once(" => ") else {
        return Verdict::Differs;
    };
    match reply(call, false, &Registers::new(), sessions) {
        Ok(right) if same(&right.text, given) => Verdict::Right,
        _ => Verdict::Differs,
    }
}

/// What is said of a line `input => output`. One without the arrow, or whose input is no bytes, is none.
pub fn of_play(line: &str) -> Verdict {
    if line.len() >= TOO_LONG {
        return Verdict::NoLine;
    }
    let Some((input, given)) = line.split_once(" => ") else {
        return Verdict::NoLine;
    };
    match unshown(input) {
        Err(_) => Verdict::NoLine,
        Ok(bytes) if expected(&output(&bytes)) == given => Verdict::Right,
        Ok(_) => Verdict::Differs,
    }
}

/// The answer is the given one: any NaN for any NaN, and either zero for one that is marked.
pub fn same(right: &str, given: &str) -> bool {
    let split = |text: &str| -> Vec<String> {
        let parts = text.split_inclusive([' ', '/', '|']);
        parts.map(str::to_string).collect()
    };
    let (right, given) = (split(right), split(given));
    right.len() == given.len() && right.iter().zip(&given).all(|(a, b)| a == b || forgiven(a, b))
}

fn forgiven(a: &str, b: &str) -> bool {
    let plain = |s: &str| s.trim_end_matches([' ', '/', '|']).to_string();
    if a[plain(a).len()..] != b[plain(b).len()..] {
        return false;
    }
    let (a, b) = (plain(a), plain(b));
    let zero = |s: &str| matches!(s.trim_end_matches('~'), "00000000" | "80000000");
    (is_nan(&a) && is_nan(&b) && a.len() == b.len()) || (b.ends_with('~') && zero(&a) && zero(&b))
}

/// Eight or sixteen digits.
pub fn is_bits(s: &str) -> bool {
    matches!(s.len(), 8 | 16)
        && s.bytes()
            .all(|b| b.is_ascii_digit() || (b'A'..=b'F').contains(&b))
}

pub fn is_nan(s: &str) -> bool {
    let bits = u64::from_str_radix(s, 16).unwrap_or(0);
    is_bits(s)
        && match s.len() {
            8 => f32::from_bits(bits as u32).is_nan(),
            _ => f64::from_bits(bits).is_nan(),
        }
}

/// Reads a list and writes what is printed for it.
pub fn print(
    out: &mut impl Write,
    list: impl BufRead,
    mut verdict: impl FnMut(&str) -> Verdict,
) -> Result<()> {
    let (mut run, mut differ) = (0, 0);
    for (number, line) in (1..).zip(list.lines()) {
        let line = line?;
        if line.starts_with("##") {
            writeln!(out, "{run} run, {differ} differ")?;
            (run, differ) = (0, 0);
        }
        if line.is_empty() || line.starts_with('#') {
            continue;
        }
        run += 1;
        match verdict(&line) {
            Verdict::Right => continue,
            Verdict::Differs => writeln!(out, "line {number} differs")?,
            Verdict::NoLine => writeln!(out, "line {number} is no line")?,
        }
        differ += 1;
    }
    writeln!(out, "{run} run, {differ} differ")
}
