//! Answers of the ported Rust. One call a line on standard input gives one answer a line on
//! standard output; or random calls are made here. DRIVER.md has the forms.
mod ask;
mod calls;
mod changed;
mod counted;
mod counted_commits;
mod domain;
mod edges;
mod edits;
mod envelopes;
mod forms;
mod idle;
mod nearly;
mod plays;
mod printed;
mod random;
mod reader;
mod records;
mod reply;
mod rules;
mod same_bits;
mod scripts;
mod session;
mod sheets;
mod state;
mod text;
mod tickets;
mod wrong;
mod wrong_commits;
mod wrong_idle;
mod wrong_plays;
mod wrong_sessions;

use calls::call;
use random::Random;
use reply::reply;
use scripts::{Mix, Script};
use session::{session, Sessions};
use std::io::{stdin, BufRead, BufWriter, Read, Result, Write};
use text::{arguments, Registers};

const USAGE: &str = "oracle_driver [--raw]
oracle_driver --gen SEED N [OPERATION,..]
oracle_driver --vectors SEED N [OPERATION,..]
oracle_driver --sessions SEED N [WORDS]
oracle_driver --idle SEED N [WORDS]
oracle_driver --commits SEED N [WORDS]
oracle_driver --counted
oracle_driver --wrong SEED
oracle_driver --printed
oracle_driver --plays SEED N FOLDER
oracle_driver --play-fixed SEED
oracle_driver --play-list SEED POINTS
oracle_driver --play-wrong SEED
oracle_driver --play-printed
oracle_driver --play";

fn main() -> Result<()> {
    std::panic::set_hook(Box::new(|e| {
        // a panic of the Rust is an answer
        if e.location().is_some_and(|l| l.file().contains("driver/src")) {
            eprintln!("{e}");
        }
    }));
    let words: Vec<String> = std::env::args().skip(1).collect();
    let words: Vec<&str> = words.iter().map(String::as_str).collect();
    let out = &mut BufWriter::new(std::io::stdout().lock());
    match words[..] {
        [] => replies(out, false)?,
        ["--raw"] => replies(out, true)?,
        ["--gen", seed, count, ref ops @ ..] => {
            random_calls(out, number(seed), number(count), ops.first(), false)?
        }
        ["--vectors", seed, count, ref ops @ ..] => {
            random_calls(out, number(seed), number(count), ops.first(), true)?
        }
        ["--sessions", seed, count, ref words @ ..] => {
            random_sessions(out, &scripts::PLAIN, number(seed), number(count), words.first())?
        }
        ["--idle", seed, count, ref words @ ..] => {
            random_sessions(out, &scripts::IDLE, number(seed), number(count), words.first())?
        }
        ["--commits", seed, count, ref words @ ..] => {
            random_sessions(out, &scripts::COMMITS, number(seed), number(count), words.first())?
        }
        ["--counted"] => counted::print(out, stdin().lock())?,
        ["--wrong", seed] => wrong::write(out, number(seed))?,
        ["--printed"] => {
            let mut sessions = Sessions::new();
            printed::print(out, stdin().lock(), |line| printed::of_call(line, &mut sessions))?
        }
        ["--plays", seed, count, folder] => {
            plays::write(std::path::Path::new(folder), number(seed), number(count))?
        }
        ["--play-fixed", seed] => plays::fixed_list(out, number(seed))?,
        ["--play-list", seed, points] => plays::list(out, number(seed), number(points))?,
        ["--play-wrong", seed] => wrong_plays::write(out, number(seed))?,
        ["--play-printed"] => printed::print(out, stdin().lock(), printed::of_play)?,
        ["--play"] => {
            let mut input = vec![];
            stdin().lock().read_to_end(&mut input)?;
            write!(out, "{}", plays::output(&input))?
        }
        _ => panic_usage(),
    }
    out.flush()
}

fn panic_usage() -> ! {
    eprintln!("{USAGE}");
    std::process::exit(2);
}

fn number(word: &str) -> u64 {
    word.parse().unwrap_or_else(|_| panic_usage())
}

fn random_calls(
    out: &mut impl Write,
    seed: u64,
    count: u64,
    ops: Option<&&str>,
    answers: bool,
) -> Result<()> {
    let all: Vec<&str> = forms::operations().map(|o| o.0).collect();
    let ops = ops.map_or(all, |s| s.split(',').collect());
    let mut r = Random(seed);
    for _ in 0..count {
        let op = r.one_of(&ops);
        let a = r.call(op);
        write!(out, "{op}{}", arguments(&a))?;
        if answers {
            write!(out, " => {}", call(op, &a, false).text)?;
        }
        writeln!(out)?;
    }
    Ok(())
}

/// One session after the other, each of some tens of calls.
fn random_sessions(
    out: &mut impl Write,
    mix: &'static Mix,
    seed: u64,
    count: u64,
    words: Option<&&str>,
) -> Result<()> {
    let words = words.map(|w| vec![number(w)]);
    let lengths = words.as_deref().unwrap_or(mix.lengths);
    let mut r = Random(seed);
    let mut sessions = Sessions::new();
    let (mut script, mut line) = (Script::new(mix), r.opening(lengths));
    for _ in 0..count {
        let call: Vec<&str> = line.split(' ').collect();
        let answer = session(&mut sessions, &Registers::new(), &call);
        writeln!(out, "session {line} => {}", answer.expect("a call made here"))?;
        if r.once_in(60) {
            (script, line) = (Script::new(mix), r.opening(lengths));
        } else {
            let (call, a) = script.call(&mut r, &sessions["s"]);
            line = format!("s {call}{}", arguments(&a));
        }
    }
    Ok(())
}

fn replies(out: &mut impl Write, raw: bool) -> Result<()> {
    let mut registers = Registers::new();
    let mut sessions = Sessions::new();
    for line in stdin().lock().lines() {
        let line = line?;
        let mut call = line.split(" => ").next().unwrap_or("");
        let words: Vec<&str> = call.split_whitespace().collect();
        if words.first().is_none_or(|w| w.starts_with('#')) {
            continue;
        }
        let mut name = None;
        if let [register, "=", _, ..] = words[..] {
            name = register.strip_prefix('@');
            call = call.split_once(" = ").map_or(call, |parts| parts.1);
        }
        match reply(call, raw, &registers, &mut sessions) {
            Err(text) => writeln!(out, "error {text}")?,
            Ok(answer) => {
                writeln!(out, "{}", answer.text)?;
                if let (Some(name), Some(e)) = (name, answer.envelope) {
                    registers.insert(name.into(), e);
                }
            }
        }
    }
    Ok(())
}
