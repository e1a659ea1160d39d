//! What a list of sessions has: how many lines of each sort, and of its edits how many are idle or nearly
//! idle, and where. Of its commits, and of a list's asks, counted_commits.rs says more.
use crate::calls::call;
use crate::counted_commits::{of_ask, of_commit, Commit};
use crate::nearly::one_thing;
use crate::records::Envelope;
use crate::same_bits::same_bits;
use crate::session::{session, Session, Sessions};
use crate::text::{Registers, Words};
use std::collections::{BTreeMap, BTreeSet};
use std::io::{BufRead, Result, Write};

/// How a session stood before a line.
pub struct Before {
    pub envelope: Envelope,
    /// Every envelope of its list.
    pub list: Vec<Envelope>,
    /// Before the last edit, and after the first entry ahead.
    beside: [Option<Envelope>; 2],
    pub ahead: bool,
    pub full: bool,
    pub room: u64,
}

impl Before {
    fn of(s: &Session) -> Self {
        Before {
            envelope: s.envelope(),
            list: s.envelopes(),
            beside: [s.before(), s.next()],
            ahead: s.ahead() > 0,
            full: s.room() > 0 && s.kept() == s.room(),
            room: s.room(),
        }
    }
}

/// The figures by name, what the last line of the script was, and the tickets that it committed.
#[derive(Default)]
struct Counted {
    figures: BTreeMap<String, u64>,
    last: String,
    tickets: BTreeSet<String>,
}

impl Counted {
    fn one(&mut self, name: &str) {
        *self.figures.entry(name.into()).or_default() += 1;
    }

    fn ones(&mut self, all: &[(&str, bool)]) {
        for (name, _) in all.iter().filter(|x| x.1) {
            self.one(name);
        }
    }

    /// A line: its words from the call's on, whether it was accepted, and how the session stood and stands.
    fn line(&mut self, words: &[&str], accepted: bool, before: Option<&Before>, after: &Session) {
        self.one("lines");
        self.one(&format!("lines {}", words[0]));
        if self.last.starts_with("idle") {
            let sort = if accepted { "accepted" } else { "refused" };
            self.one(&format!("after an {}: {} {sort}", self.last, words[0]));
        }
        let mut last = words[0];
        if let ("edit", Some(before)) = (last, before) {
            self.one("edits");
            self.one(&format!("edits {}", words[1]));
            if accepted {
                last = self.accepted(words[1], before, &after.envelope());
            }
        }
        self.last = last.into();
    }

    /// A commit, after the last line. Says what it is for the next.
    fn commit(&mut self, c: &Commit, before: &Before, after: &Session) -> &'static str {
        let sort = c.sort(before, &after.envelope());
        for name in of_commit(c, sort, before, &self.last) {
            self.one(&name);
        }
        if sort == "idle" {
            "idle commit"
        } else {
            "commit"
        }
    }

    /// An ask.
    fn ask(&mut self, words: &[&str]) {
        let Ok(a) = Words::new(words, &Registers::new()).arguments("EED") else {
            return;
        };
        self.one("asks");
        for name in of_ask(&a, &call("ask", &a, false).text) {
            self.one(&name);
        }
    }

    /// An accepted edit. Says whether it is idle.
    fn accepted(&mut self, op: &str, before: &Before, after: &Envelope) -> &'static str {
        self.one("edits accepted");
        let last = std::mem::take(&mut self.last);
        if same_bits(&before.envelope, after) {
            self.one("idle");
            self.one(&format!("idle {op}"));
            self.ones(&[
                ("idle: steps ahead", before.ahead),
                ("idle: kept = D", before.full),
                ("idle: D = 0", before.room == 0),
                ("idle: after the opening", last == "open"),
                ("idle: after a damage", last == "damage"),
                ("idle: after a step", last == "back" || last == "forward"),
                ("idle: after an idle one", last.starts_with("idle")),
                ("idle: no points", after.rust.points.is_empty()),
                ("idle: 255 points or 256", after.rust.points.len() > 254),
            ]);
            return "idle edit";
        }
        if let Some(kind) = one_thing(&before.envelope, after) {
            self.one("nearly");
            self.one(&format!("nearly: {kind}"));
        }
        let leads = |to: &Option<Envelope>| to.as_ref().is_some_and(|e| same_bits(e, after));
        self.ones(&[
            ("leads to the one before the last edit", leads(&before.beside[0])),
            ("leads to the one that stands ahead", leads(&before.beside[1])),
        ]);
        "edit"
    }
}

/// Whether the edit of a call `NAME len WORDS edit ..` that is refused by 11 is idle with the right length.
fn other_length_idle(sessions: &Sessions, words: &[&str]) -> bool {
    let ([name, _, _, rest @ ..], Some(s)) = (words, sessions.get(words[0])) else {
        return false;
    };
    let run = |words: &[&str]| {
        let mut all = Sessions::from([(name.to_string(), s.clone())]);
        let answer = session(&mut all, &Registers::new(), words);
        (answer.unwrap_or_default(), all[*name].envelope())
    };
    let (answer, after) = run(&[&[*name], rest].concat());
    rest[0] == "edit"
        && run(words).0 == "refuse 11"
        && answer.starts_with("ok")
        && same_bits(&s.envelope(), &after)
}

/// Reads a list and writes a figure a line.
pub fn print(out: &mut impl Write, list: impl BufRead) -> Result<()> {
    let (mut counted, mut sessions) = (Counted::default(), Sessions::new());
    for line in list.lines() {
        let line = line?;
        let call = line.split(" => ").next().unwrap_or("");
        let words: Vec<&str> = call.split(' ').collect();
        if words[0] == "ask" {
            counted.ask(&words[1..]);
        }
        let ["session", name, what, ..] = words[..] else {
            continue;
        };
        if what == "open" {
            counted.tickets.clear();
        }
        let before = sessions.get(name).map(Before::of);
        let commit = Commit::of(&sessions, &words[1..], &mut counted.tickets);
        if what == "len" && other_length_idle(&sessions, &words[1..]) {
            counted.one("idle but for the length: refuse 11");
        }
        let answer = session(&mut sessions, &Registers::new(), &words[1..]);
        let accepted = answer.is_ok_and(|a| a.starts_with("ok"));
        let Some(after) = sessions.get(name) else {
            continue;
        };
        let committed = commit.zip(before.as_ref());
        let last = committed.map(|(c, before)| counted.commit(&c, before, after));
        if what == "len" {
            counted.one("lines with a length");
            counted.line(&words[4..], accepted, before.as_ref(), after);
        } else {
            counted.line(&words[2..], accepted, before.as_ref(), after);
        }
        if let Some(last) = last {
            counted.last = last.into();
        }
    }
    for (name, n) in counted.figures {
        writeln!(out, "{n:8} {name}")?;
    }
    Ok(())
}
