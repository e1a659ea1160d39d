//! What a list's asks and commits have: how many of each answer, the causes that meet, and which tickets are stale by
//! what or are committed again.
use crate::ask::{causes, parts, Cause};
use crate::counted::Before;
use crate::nearly::one_thing;
use crate::records::Envelope;
use crate::same_bits::{differences, same_bits};
use crate::session::Sessions;
use crate::text::{Arg, Registers, Words};
use std::collections::BTreeSet;

/// The refusal that the first cause gives, and each that comes after it.
fn refused(call: &str, causes: &[Cause]) -> Vec<String> {
    let Some((n, what)) = causes.first() else {
        return vec![];
    };
    let mut all = vec![format!("{call} refuse {n}"), format!("{call} refuse {n}: {what}")];
    let later: BTreeSet<u32> = causes.iter().map(|c| c.0).filter(|m| m != n).collect();
    all.extend(later.iter().map(|m| format!("{call} refuse {n} before {m}")));
    all
}

/// What an ask shows: its answer, and whether points fall together.
pub fn of_ask(a: &[Arg], answer: &str) -> Vec<String> {
    let (first, second, _) = parts(a);
    let count = |e: &Envelope| e.rust.points.len();
    let (n, m) = (count(first), count(second));
    let mut all = refused("ask", &causes(a));
    if let Some(k) = answer.strip_prefix("ok ").and_then(|k| k.parse::<usize>().ok()) {
        let fits = ["fewer points than both", "as many points as both"];
        all.push("ask ok".into());
        all.push(format!("ask ok: {}", fits[(k == n + m) as usize]));
        all.extend((k > 254).then(|| format!("ask ok: {k} points")));
        all.extend((k < n + m && n + m > 256).then(|| "ask ok: both together over 256".into()));
        all.extend((k == n).then(|| "ask ok: none more".into()));
    }
    all.extend(first.hard.then(|| "ask: hard".into()));
    all
}

/// A commit: its parts, the causes to refuse it, and whether the script had its ticket before.
pub struct Commit {
    parts: Vec<Arg>,
    causes: Vec<Cause>,
    again: bool,
}

impl Commit {
    /// Of a call's words, from the session's name on; `tickets` are those of the script so far.
    pub fn of(sessions: &Sessions, words: &[&str], tickets: &mut BTreeSet<String>) -> Option<Self> {
        let s = sessions.get(words[0])?;
        let (other, rest) = match words[1..] {
            ["len", length, "commit", ref rest @ ..] => (length.parse() != Ok(s.words()), rest),
            ["commit", ref rest @ ..] => (false, rest),
            _ => return None,
        };
        let parts = Words::new(rest, &Registers::new()).arguments("EED").ok()?;
        Some(Commit {
            causes: s.causes(other, &parts),
            again: !tickets.insert(rest.join(" ")),
            parts,
        })
    }

    /// What became of it.
    pub fn sort(&self, before: &Before, after: &Envelope) -> &'static str {
        match self.causes.first() {
            None if same_bits(&before.envelope, after) => "idle",
            None => "counts",
            Some((14, _)) => "stale",
            Some(_) => "refused otherwise",
        }
    }
}

/// What a commit shows: its answer, what its ticket is stale by, and where it stands, after what line.
pub fn of_commit(c: &Commit, sort: &str, before: &Before, last: &str) -> Vec<String> {
    let mut all = refused("commit", &c.causes);
    all.push(format!("commit {sort}"));
    for (place, there) in [
        ("steps ahead", before.ahead),
        ("kept = D", before.full),
        ("D = 0", before.room == 0),
        ("after the opening", last == "open"),
        ("after a step back", last == "back"),
        ("after a step forward", last == "forward"),
        ("after a commit", last.ends_with("commit")),
        ("of a ticket again", c.again),
        ("of a ticket again, after a step back", c.again && last == "back"),
        (
            "of a ticket again, after a commit",
            c.again && last.ends_with("commit"),
        ),
    ] {
        all.extend(there.then(|| format!("commit {sort}: {place}")));
    }
    if sort == "stale" {
        all.push(format!(
            "commit stale by: {}",
            stale_by(parts(&c.parts).0, before)
        ));
    }
    all
}

/// One thing; else all that an envelope of the list has otherwise; else more.
fn stale_by(first: &Envelope, before: &Before) -> String {
    let all = differences(&before.envelope, first);
    match (one_thing(&before.envelope, first), &all[..]) {
        (Some(kind), _) => kind.into(),
        (None, [(field, _)]) => format!("{field} alone"),
        _ if before.list.iter().any(|e| same_bits(e, first)) => "an envelope of the list".into(),
        _ => "another envelope".into(),
    }
}
