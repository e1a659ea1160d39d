//! Wrong lines: for every kind of call, each field of its answer wrong by itself, an answer where a
//! refusal is due and the other way round, another refusal, and lines that are cut short or too long.
use crate::calls::{call, Answer};
use crate::forms::{operations, signature, REFUSALS};
use crate::printed::{self, is_bits, is_nan, Verdict};
use crate::random::Random;
use crate::records::{controls, curve_of, AutomationPoint, CurveType, Envelope};
use crate::session::Sessions;
use crate::text::{arguments, Arg};
use crate::wrong_commits;
use std::collections::{BTreeMap, BTreeSet};
use std::io::{Result, Write};

/// The bytes of a long comment, and of a long line.
pub const LONG: usize = 140_000;

/// How many random calls are made of a kind, to choose from.
const DRAWN: usize = 3000;

/// The longest line that is chosen.
const LONGEST: usize = 2000;

// ---- wrong answers

/// What may stand in a field's place.
fn others(field: &str) -> Vec<String> {
    let number = field.trim_end_matches('~');
    if field == "-" {
        return vec!["0".repeat(8), "0".repeat(16), "x".into()];
    }
    if is_bits(number) {
        let mut all = vec![flipped(number) + &field[number.len()..]];
        if number == field && is_nan(number) && number.len() == 8 {
            // only a zero is marked
            all.push(format!("{number}~"));
        }
        if number == field && number[1..].bytes().all(|b| b == b'0') {
            // a zero of the other sign
            match &number[..1] {
                "0" => all.push(format!("8{}", &number[1..])),
                "8" => all.push("0".repeat(number.len())),
                _ => {}
            }
        }
        return all;
    }
    let wide = |n: i128| vec![format!("{n:0w$}", w = field.len())];
    match field.parse::<i128>() {
        Ok(0) => [wide(1), vec![String::new()]].concat(),
        Ok(1) => wide(0),
        Ok(n) if n < 0 => vec![(n + 1).to_string()],
        Ok(n) => wide(n + 1),
        Err(_) => vec![another_letter(field)],
    }
}

/// The lowest bit flipped; a zero for a NaN.
fn flipped(bits: &str) -> String {
    if is_nan(bits) {
        return "0".repeat(bits.len());
    }
    let number = u64::from_str_radix(bits, 16).unwrap() ^ 1;
    format!("{number:0w$X}", w = bits.len())
}

/// The word with another last letter.
pub fn another_letter(word: &str) -> String {
    let mut letters: Vec<char> = word.chars().collect();
    let last = letters.last_mut().unwrap();
    *last = match *last {
        c @ ('a'..='y' | 'A'..='Y') => (c as u8 + 1) as char,
        _ => 'x',
    };
    letters.into_iter().collect()
}

/// The text with each field wrong by itself. Fields have spaces, `/` or `|` between them.
pub fn fields_wrong(text: &str) -> Vec<String> {
    some_wrong(text, |_| true)
}

/// A NaN or a marked zero where a number is due, and that number with a mark.
fn forgiving(right: &str) -> Vec<String> {
    let Some((before, number)) = right.rsplit_once(' ').filter(|parts| is_bits(parts.1)) else {
        return vec![];
    };
    if is_nan(number) {
        return vec![];
    }
    let mut all = match number.len() {
        8 => vec!["7FC00000".into(), "00000000~".into(), format!("{number}~")],
        _ => vec!["7FF8000000000000".to_string()],
    };
    all.retain(|wrong| !printed::same(wrong, number) && !printed::same(number, wrong));
    all.iter().map(|wrong| format!("{before} {wrong}")).collect()
}

/// The text with each such field wrong by itself.
fn some_wrong(text: &str, such: fn(&str) -> bool) -> Vec<String> {
    let (mut all, mut start) = (vec![], 0);
    for part in text.split_inclusive([' ', '/', '|']) {
        let field = part.trim_end_matches([' ', '/', '|']);
        if !field.is_empty() && such(field) {
            let end = start + field.len();
            let wrong = others(field).into_iter();
            all.extend(wrong.map(|other| format!("{}{other}{}", &text[..start], &text[end..])));
        }
        start += part.len();
    }
    all
}

/// A refusal with another number; one with a line also with another line.
fn other_refusals(answer: &str) -> Vec<String> {
    let numbers: Vec<u64> = answer.split(' ').skip(1).map(|n| n.parse().unwrap()).collect();
    // the next one, and one with the same last digit
    let others = [numbers[0] % REFUSALS + 1, (numbers[0] + 10) % 20];
    let mut all: Vec<String> = match numbers[..] {
        [_, line] => others.map(|n| format!("refuse {n} {line}")).into(),
        _ => others.map(|n| format!("refuse {n}")).into(),
    };
    if let [n, line] = numbers[..] {
        all.push(format!("refuse {n} {}", line + 1));
        all.push(format!("refuse {n} {}", line - 1));
    }
    all
}

/// Wrong answers in the place of the right one; `answers` are some that other calls have.
pub fn wrong_answers(right: &str, answers: &[String]) -> Vec<String> {
    let mut all = if right.starts_with("refuse") {
        let mut all = other_refusals(right);
        all.extend(answers.iter().cloned());
        all.push(right.replace("refuse", "refusf"));
        all
    } else {
        let mut all = fields_wrong(right);
        all.extend(forgiving(right));
        all.push("refuse 1".into());
        all
    };
    all.push(right.rsplit_once(' ').unwrap().0.into());
    all.push(format!("{right} 0"));
    all.push(format!("{right}x"));
    assert!(all.iter().all(|wrong| !printed::same(right, wrong)), "{right}");
    all
}

/// A line cut short by a word, with a word more, and without an answer.
pub fn malformed(call: &str, right: &str) -> Vec<String> {
    let mut all = vec![format!("{call} 0 => {right}"), call.to_string()];
    if let Some((cut, _)) = call.rsplit_once(' ') {
        all.push(format!("{cut} => {right}"));
    }
    all
}

/// The call with each of its envelopes lacking `hard`, their sixth field.
fn without_hard(call: &str) -> Vec<String> {
    let words: Vec<&str> = call.split(' ').collect();
    let lacking = |k: usize| [&words[..k + 6], &words[k + 7..]].concat().join(" ");
    let braces = (1..words.len()).filter(|&k| words[k] == "{");
    braces.map(lacking).collect()
}

/// The call with each opening brace, and each word after the envelopes, as a letter. A switch and a sheet's bytes
/// are read all the same.
fn unread(op: &str, call: &str) -> Vec<String> {
    if signature(op).is_some_and(|(kinds, _)| kinds.contains(['B', 'S'])) {
        return vec![];
    }
    let words: Vec<&str> = call.split(' ').collect();
    let tail = words.iter().rposition(|w| *w == "}").unwrap_or(0);
    let spoilt = |k: usize| [&words[..k], &["x"], &words[k + 1..]].concat().join(" ");
    (1..words.len())
        .filter(|&k| words[k] == "{" || k > tail)
        .map(spoilt)
        .collect()
}

// ---- the calls that are chosen

pub struct Case {
    pub call: String,
    pub right: String,
}

/// What an answer is: a refusal by its number, or a kind of answer, whether it has a NaN and a marked zero.
fn kind_of(right: &str) -> (String, bool, bool) {
    let words: Vec<&str> = right.split([' ', '/']).collect();
    let has = |test: fn(&&str) -> bool| words.iter().any(test);
    let what = match words[1].trim_end_matches('~') {
        word if is_bits(word) => "bits",
        word if words[0] == "ok" && word.parse().is_ok_and(|n: u64| n > 1) => "count",
        word => word,
    };
    let kind = format!("{} {what}", words[0]);
    (kind, has(|w| is_nan(w)), has(|w| w.ends_with('~')))
}

/// How much an envelope lacks to show all its fields.
fn envelope_lacks(e: &Envelope) -> usize {
    let limits = [e.rust.min_value, e.rust.max_value, e.rust.step_size];
    let lacks = [
        !(2..=3).contains(&e.rust.points.len()),
        !e.rust.points.iter().any(|p| controls(&p.curve).is_some()),
        !e.rust.points.iter().any(|p| p.sample_position.is_some()),
        limits.iter().flatten().count() == 0,
        limits.iter().flatten().count() == 3,
        e.rust.points.windows(2).all(|w| w[0].value == w[1].value),
        !e.hard,
    ];
    lacks
        .iter()
        .zip([4, 2, 2, 1, 1, 1, 1])
        .map(|(l, weight)| *l as usize * weight)
        .sum()
}

/// How much an answer lacks to show all that its kind may have.
fn lacks(a: &[Arg], answer: &Answer) -> usize {
    if let Some(e) = &answer.envelope {
        return envelope_lacks(e);
    }
    let words: Vec<&str> = answer.text.split(' ').collect();
    let lack = |all: &[bool]| all.iter().filter(|x| **x).count();
    match (&words[1..], a) {
        (["bytes", ..], [Arg::E(e), ..]) => envelope_lacks(e),
        (["buffer", len, places @ ..], _) => {
            let untouched = |i: usize| places.get(i) == Some(&format!("{:08X}", 0x4B00_0000 + i).as_str());
            let written: Vec<usize> = (0..places.len()).filter(|i| !untouched(*i)).collect();
            let last = len.parse::<usize>().unwrap().saturating_sub(1);
            let alike = written.windows(2).any(|w| places[w[0]] == places[w[1]]);
            let few = written.len() < 2;
            lack(&[!untouched(0), !untouched(last), few, alike, written.len() > 5])
        }
        (["list", n, ..], _) => lack(&[*n != "2" && *n != "3", *n == "0"]),
        (["walk", _, steps @ ..], _) => {
            let ended = steps.iter().filter(|s| s.starts_with('-')).count();
            let few = steps.len() < ended + 2;
            let alike = steps
                .windows(2)
                .any(|w| w[0].split('/').next() == w[1].split('/').next());
            lack(&[ended == 0, few, alike, ended > 2])
        }
        (["pair", low, high], _) => lack(&[low == high]),
        _ => 0,
    }
}

/// The call of each kind of answer that lacks least and is shortest.
pub fn chosen(mut draw: impl FnMut() -> (String, Vec<Arg>, Answer)) -> Vec<Case> {
    let mut best: BTreeMap<_, ((usize, usize), Case)> = BTreeMap::new();
    for _ in 0..DRAWN {
        let (call, a, answer) = draw();
        let cost = (lacks(&a, &answer), call.len() + answer.text.len());
        let kind = kind_of(&answer.text);
        if cost.1 <= LONGEST && best.get(&kind).is_none_or(|(c, _)| cost < *c) {
            let right = answer.text;
            best.insert(kind, (cost, Case { call, right }));
        }
    }
    best.into_values().map(|(_, case)| case).collect()
}

/// Wrong lines of the calls that are chosen: every wrong answer for the first refusal and the first of each
/// kind of answer; for the others what is their own, the refusal's number, or a NaN or marked zero.
pub fn lines_of(cases: &[Case]) -> Vec<String> {
    let answered = cases.iter().find(|c| c.right.starts_with("ok"));
    let answer: Vec<String> = answered.iter().map(|c| c.right.clone()).collect();
    let (mut all, mut seen) = (vec![], BTreeSet::new());
    for Case { call, right } in cases {
        let refusal = right.starts_with("refuse");
        let kind = if refusal {
            "refuse".into()
        } else {
            kind_of(right).0
        };
        let wrong = if seen.insert(kind) {
            wrong_answers(right, &answer)
        } else if refusal {
            [other_refusals(right), answer.clone()].concat()
        } else {
            some_wrong(right, |field| is_nan(field) || field.ends_with('~'))
        };
        all.extend(wrong.iter().map(|wrong| format!("{call} => {wrong}")));
    }
    all
}

/// Lines with the answer that is right if `hard` of one envelope is turned: for each envelope of the call,
/// on and off, the shortest whose answers differ.
fn hard_turned(r: &mut Random, op: &str) -> Vec<String> {
    let mut best: BTreeMap<(usize, bool), String> = BTreeMap::new();
    for _ in 0..DRAWN {
        let a = r.call(op);
        let right = call(op, &a, false).text;
        for (k, x) in a.iter().enumerate() {
            let Arg::E(e) = x else { continue };
            let (mut turned, hard) = (a.clone(), !e.hard);
            turned[k] = Arg::E(Envelope { hard, ..e.clone() });
            let wrong = call(op, &turned, false).text;
            // not in a mark alone, with which no answer is compared
            if printed::same(&right.replace('~', ""), &wrong) {
                continue;
            }
            let line = format!("{op}{} => {wrong}", arguments(&a));
            if best
                .get(&(k, e.hard))
                .is_none_or(|other| line.len() < other.len())
            {
                best.insert((k, e.hard), line);
            }
        }
    }
    let lines: BTreeSet<String> = best.into_values().collect();
    lines.into_iter().filter(|line| line.len() <= LONGEST).collect()
}

fn of_operation(r: &mut Random, op: &str) -> Vec<String> {
    let cases = chosen(|| {
        let a = r.call(op);
        let answer = call(op, &a, false);
        (format!("{op}{}", arguments(&a)), a, answer)
    });
    let mut all = lines_of(&cases);
    let Case { call, right } = &cases[0];
    all.extend(malformed(call, right));
    let no_calls = [unread(op, call), without_hard(call)].concat();
    all.extend(no_calls.iter().map(|call| format!("{call} => {right}")));
    if signature(op).is_some_and(|(kinds, _)| kinds.contains('E')) {
        all.extend(hard_turned(r, op));
    }
    let name = another_letter(op);
    assert!(signature(&name).is_none());
    all.push(format!("{name}{} => {right}", &call[op.len()..]));
    for line in &all {
        assert!(
            printed::of_call(line, &mut Sessions::new()) != Verdict::Right,
            "{line}"
        );
    }
    all
}

pub fn point(time: f64, position: Option<u64>, value: f32, curve: CurveType) -> AutomationPoint {
    AutomationPoint {
        time,
        sample_position: position,
        value,
        curve,
    }
}

/// A right line with a part of its answer replaced.
fn replaced(op: &str, a: &[Arg], part: &str, other: &str) -> String {
    let right = call(op, a, false).text;
    assert!(right.contains(part), "{right}");
    format!("{op}{} => {}", arguments(a), right.replacen(part, other, 1))
}

/// Lines wrong in one thing each that no rule above comes to: a byte that is no digit, where a careless reading takes it
/// for one; a byte that is no space; none for a number; a target past 32 bits; another curve with the same
/// last digit; one control for the other; an envelope or a sheet without `hard`, or with one that is no 0
/// or 1; a byte of a sheet.
fn replaced_parts() -> Vec<String> {
    let mut e = Envelope::new(7);
    e.rust.step_size = Some(0.375);
    e.rust
        .points
        .push(point(0.0, Some(1), 1.0, CurveType::Bezier(0.25, 0.75)));
    let mut plain = e.clone();
    plain.rust.points[0].curve = curve_of(11, 0.0, 0.0).unwrap();
    let kept = |e: &Envelope| vec![Arg::E(e.clone()), Arg::B(true)];
    let mut free = e.clone();
    free.rust.step_size = None;
    let walk = [Arg::E(free), Arg::D(1.0), Arg::D(1.0), Arg::N(1)];
    let sheet = [Arg::E(Envelope::new(7)), Arg::N(200)];
    let digits = ["3f8", "3G8", "3.8", "3:8", "3@8", "3/8"];
    let mut all: Vec<String> = digits
        .iter()
        .map(|other| replaced("roundf", &[Arg::F(1.0)], "3F8", other))
        .collect();
    all.push(replaced("roundf", &[Arg::F(1.0)], " 3F8", "_3F8"));
    all.push(replaced("set_enabled", &kept(&e), "0000000000000001", "-"));
    all.push(replaced("set_enabled", &kept(&e), "3EC00000", "-"));
    all.push(replaced("set_enabled", &kept(&e), "3F400000", "3E800000"));
    all.push(replaced("set_enabled", &kept(&e), "{ 7", "{ 4294967303"));
    all.push(replaced("set_enabled", &kept(&plain), " 11 ", " 01 "));
    for other in ["", " 1", " 2", " -", " 00", " x", " 0 0"] {
        all.push(replaced(
            "set_enabled",
            &kept(&e),
            "3EC00000 0",
            &format!("3EC00000{other}"),
        ));
    }
    let hard = [Arg::E(e.clone()), Arg::B(true)];
    for other in ["", " 0", " 2", " -", " 01", " 11", " x", " 1 1"] {
        let part = format!("3EC00000{other}");
        all.push(replaced("set_hard", &hard, "3EC00000 1", &part));
    }
    all.push(replaced("walk", &walk, "3F800000/", "-/"));
    all.push(replaced("walk", &walk, "3F800000/", "3F800000|"));
    for (part, other) in [
        (" target", " uarget"),
        (" target", "_target"),
        (" enabled", "|enabled"),
        ("|", " "),
        ("cp2|", "cp2x"),
        (" hard|", "|"),
        (" hard|", " harc|"),
        ("- 0|", "-|"),
        ("- 0|", "- 1|"),
        ("- 0|", "- 2|"),
        ("- 0|", "- -|"),
    ] {
        all.push(replaced("sheet", &sheet, part, other));
    }
    all
}

/// Lines whose call can't be run: curves that are none, bytes that are none, `hard` that is no 0 or 1, and
/// more than the replay has room for.
fn not_run() -> Vec<String> {
    let e = || Arg::E(Envelope::new(7));
    let one_more = Arg::N(1025);
    let mut all: Vec<String> = [
        (
            "render",
            vec![
                e(),
                Arg::D(1.0),
                Arg::N(0),
                Arg::N(0),
                Arg::N(0),
                one_more.clone(),
            ],
        ),
        (
            "to_buffer",
            vec![e(), Arg::D(1.0), Arg::D(0.0), Arg::N(0), one_more.clone()],
        ),
        ("peaks", vec![e(), one_more.clone(), Arg::N(0)]),
        ("peaks", vec![e(), Arg::N(0), one_more.clone()]),
        ("sheet", vec![e(), Arg::N(20481)]),
    ]
    .into_iter()
    .map(|(op, a)| format!("{op}{} => refuse 1", arguments(&a)))
    .collect();
    all.push(format!(
        "merge_points{} 321 {} => refuse 1",
        arguments(&[e()]),
        "0".repeat(16)
    ));
    let linear = [Arg::C(CurveType::Linear), Arg::F(0.0), Arg::F(1.0), Arg::F(0.5)];
    let right = call("interpolate", &linear, false).text;
    for code in ["06", "22"] {
        let other = arguments(&linear).replacen("00", code, 1);
        all.push(format!("interpolate{other} => {right}"));
    }
    // the answer with `hard` on: another word is not taken for a 1
    let mut stop = Envelope::new(7);
    (stop.rust.max_value, stop.rust.step_size, stop.hard) = (Some(1.0), Some(0.625), true);
    stop.rust.points.push(point(0.0, None, 1.0, CurveType::Linear));
    let stop = [Arg::E(stop), Arg::D(0.0)];
    let right = call("value_at", &stop, false).text;
    assert!(right == "ok some 3F800000", "{right}");
    for other in ["2", "x", "-", "00"] {
        let other = arguments(&stop).replacen("3F200000 1", &format!("3F200000 {other}"), 1);
        all.push(format!("value_at{other} => {right}"));
    }
    all.push("read_sheet".into());
    all.push("read_sheet \\G0 => refuse 9 1".into());
    all.push("read_sheet \\0G => refuse 9 1".into());
    all
}

/// An envelope of 256 points, whose values are 0 and 1 in turn.
pub fn full() -> Envelope {
    let mut e = Envelope::new(7);
    let sawtooth = |k| point(k as f64, None, (k % 2) as f32, CurveType::Linear);
    e.rust.points.extend((0..256).map(sawtooth));
    e
}

/// Answers as long as they can be, each with its last number wrong.
fn long_answers() -> Vec<String> {
    let e = || Arg::E(full());
    let whole = [0, 1024, 0, 1024].map(Arg::N);
    let calls = [
        ("render", [vec![e(), Arg::D(4.0)], whole.to_vec()].concat()),
        ("peaks", vec![e(), Arg::N(256), Arg::N(256)]),
        ("scale", vec![e(), Arg::F(2.0)]),
        ("sheet", vec![e(), Arg::N(20480)]),
        ("walk", vec![e(), Arg::D(4.0), Arg::D(255.0), Arg::N(1020)]),
    ];
    let wrong = |(op, a): (&str, Vec<Arg>)| {
        let last = some_wrong(&call(op, &a, false).text, is_bits).pop().unwrap();
        format!("{op}{} => {last}", arguments(&a))
    };
    calls.into_iter().map(wrong).collect()
}

/// Writes the wrong lines of a list of calls. One of the lines is too long.
pub fn write(out: &mut impl Write, seed: u64) -> Result<()> {
    let mut r = Random(seed);
    for (op, ..) in operations() {
        for line in of_operation(&mut r, op) {
            writeln!(out, "{line}")?;
        }
    }
    for line in [
        replaced_parts(),
        not_run(),
        long_answers(),
        wrong_commits::asked(),
    ]
    .concat()
    {
        assert!(
            printed::of_call(&line, &mut Sessions::new()) == Verdict::Differs,
            "{line}"
        );
        writeln!(out, "{line}")?;
    }
    writeln!(out, "roundf {}", "0".repeat(LONG - "roundf ".len()))?;
    crate::wrong_sessions::write(out, &mut r)
}
