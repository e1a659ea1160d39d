//! Wrong lines of sessions. The call of each line is run, so the answer that would be right is known;
//! after a line whose call can't be read comes an opening. Calls that don't hold by the table are left out, and
//! each that holds has a wrong line.
use crate::calls::Answer;
use crate::forms::{is_call, is_lookup, weighted_calls};
use crate::printed;
use crate::random::Random;
use crate::records::{AutomationPoint, CurveType, Envelope};
use crate::session::{session, Session, Sessions};
use crate::text::{arguments, Arg, Registers};
use crate::wrong::{another_letter, chosen, lines_of, malformed, point, wrong_answers};
use crate::wrong_commits;
use crate::wrong_idle;
use std::collections::BTreeSet;
use std::io::{Result, Write};

/// `told` are the words of the calls that have a wrong line.
pub struct Script<'a, W: Write> {
    out: &'a mut W,
    sessions: Sessions,
    told: BTreeSet<String>,
}

/// Three slots and some words after them.
pub const OPEN: &str = "open 7 3100";

pub fn edit(op: &str, a: &[Arg]) -> String {
    format!("edit {op}{}", arguments(a))
}

/// Runs a call and gives its answer.
fn run(sessions: &mut Sessions, call: &str) -> String {
    let line = format!("s {call}");
    let words: Vec<&str> = line.split(' ').collect();
    session(sessions, &Registers::new(), &words).expect("a call made here")
}

pub fn add(p: AutomationPoint) -> String {
    edit("add_point", &[Arg::P(p)])
}

/// The word of a call.
fn word(call: &str) -> &str {
    call.split(' ').next().unwrap()
}

fn holds(call: &str) -> bool {
    is_call(word(call))
}

impl<W: Write> Script<'_, W> {
    pub fn session(&self) -> &Session {
        &self.sessions["s"]
    }

    /// The answers that calls would have after one another, the session being as given.
    pub fn answers(&self, s: &Session, calls: &[&str]) -> Vec<String> {
        let mut sessions = Sessions::from([("s".into(), s.clone())]);
        calls.iter().map(|call| run(&mut sessions, call)).collect()
    }

    /// Runs a call and gives its answer.
    fn run(&mut self, call: &str) -> String {
        run(&mut self.sessions, call)
    }

    /// Runs a call and writes its line with an answer that is not the right one.
    pub fn answered(&mut self, call: &str, wrong: &str) -> Result<()> {
        let right = self.run(call);
        assert!(!printed::same(&right, wrong), "{call} => {wrong}");
        writeln!(self.out, "session s {call} => {wrong}")
    }

    /// Runs a call and writes its line with the k-th wrong answer. Says whether there are more.
    pub fn wrong(&mut self, call: &str, k: usize) -> Result<bool> {
        let right = self.run(call);
        let wrong = wrong_answers(&right, &[self.run("show")]);
        self.told.insert(word(call).into());
        writeln!(self.out, "session s {call} => {}", wrong[k % wrong.len()])?;
        Ok(k + 1 < wrong.len())
    }

    /// All wrong answers of calls that together lead back to where they started.
    pub fn all(&mut self, calls: &[&str]) -> Result<()> {
        let mut k = 0;
        loop {
            let mut more = false;
            for call in calls.iter().filter(|call| holds(call)) {
                more |= self.wrong(call, k)?;
            }
            if !more {
                return Ok(());
            }
            k += 1;
        }
    }

    /// An opening, and edits after which two points and a limit are there: four, of which three are kept.
    pub fn start(&mut self) -> Result<()> {
        self.wrong(OPEN, 0)?;
        let bezier = CurveType::Bezier(0.25, 0.75);
        self.wrong(&edit("set_min", &[Arg::O(Some(-1.0))]), 1)?;
        self.wrong(&add(point(0.0, None, 0.5, bezier)), 2)?;
        self.wrong(&add(point(1.0, Some(48000), 2.0, CurveType::Linear)), 3)?;
        self.wrong(&edit("scale", &[Arg::F(2.0)]), 4)?;
        Ok(())
    }

    /// Edits and steps, each field of their answers.
    fn edits_and_steps(&mut self) -> Result<()> {
        let mut second = Envelope::new(1);
        second.rust.points.push(point(3.0, None, 0.25, CurveType::SCurve));
        let merge = edit("merge", &[Arg::E(second.clone()), Arg::D(0.5)]);
        let third = add(point(2.0, Some(96000), 1.0, CurveType::Back));
        self.all(&[OPEN])?;
        self.start()?;
        self.all(&[&third, "back"])?;
        self.all(&[&edit("set_hard", &[Arg::B(true)]), "back"])?;
        self.all(&[&merge, "back"])?;
        self.all(&["forward", "back"])?;
        self.all(&["len 3100 forward", "len 3100 back"])?;
        self.all(&[&format!("len 3100 {third}"), "back"])?;
        self.all(&[&edit("max", &[Arg::E(second)]), "back"])
    }

    /// What is looked at, each field.
    fn looks(&mut self) -> Result<()> {
        self.start()?;
        for call in [
            "show",
            "memory",
            "slot 0",
            "slot 2",
            "words 3084 17396",
            "words 20479 1",
        ] {
            self.all(&[call])?;
        }
        self.wrong("open 0 20480", 0)?;
        self.wrong(&edit("set_enabled", &[Arg::B(false)]), 0)?;
        self.all(&["words 1028 1028"])?;
        self.all(&["slot 0"])?;
        self.wrong(&edit("set_hard", &[Arg::B(true)]), 0)?;
        self.wrong(&edit("set_enabled", &[Arg::B(true)]), 0)?;
        self.all(&["slot 2"])
    }

    /// A refusal of each number that a session has.
    fn refusals(&mut self) -> Result<()> {
        self.wrong(OPEN, 1)?;
        self.all(&["back"])?;
        self.all(&["forward"])?;
        self.start()?;
        let scale = edit("scale", &[Arg::F(3.0)]);
        for call in ["len 3084 back", "len 0 forward", &format!("len 20480 {scale}")] {
            self.all(&[call])?;
        }
        let mut bad = Envelope::new(1);
        bad.rust.step_size = Some(f32::NAN);
        self.all(&[&edit("add", &[Arg::E(bad.clone())])])?;
        self.all(&[&format!("len 5 {}", edit("add", &[Arg::E(bad)]))])?;
        self.all(&[&edit("scale", &[Arg::F(f32::INFINITY)])])?;
        self.all(&[&edit("scale", &[Arg::F(f32::MAX)])])?;
        self.all(&[&edit("clamp_values", &[Arg::F(1.0), Arg::F(0.0)])])?;
        self.all(&[&edit("shift", &[Arg::D(1e300)])])?;
        if !holds("damage") {
            return Ok(());
        }
        self.all(&["damage 0 1"])?;
        self.all(&["back"])
    }

    /// Each lookup and run, by the calls that show all fields of their answers.
    fn lookups(&mut self, r: &mut Random) -> Result<()> {
        self.start()?;
        for (op, _) in weighted_calls().into_iter().filter(|c| is_lookup(c.0)) {
            let e = self.sessions["s"].envelope();
            let cases = chosen(|| {
                let a = r.session_lookup(op, &e);
                let call = format!("{op}{}", arguments(&a));
                let text = self.run(&call);
                (format!("session s {call}"), a, Answer { text, envelope: None })
            });
            self.told.insert(op.into());
            for line in lines_of(&cases) {
                writeln!(self.out, "{line}")?;
            }
            for line in malformed(&cases[0].call, &cases[0].right) {
                writeln!(self.out, "{line}")?;
            }
        }
        Ok(())
    }

    /// The count of kept one less, alone and moved to those ahead; and another session.
    fn counts(&mut self) -> Result<()> {
        self.start()?;
        let right = self.run("show");
        for other in ["kept 2 ahead 0", "kept 2 ahead 1"] {
            let wrong = right.replace("kept 3 ahead 0", other);
            assert!(wrong != right, "{right}");
            writeln!(self.out, "session s show => {wrong}")?;
        }
        writeln!(self.out, "session t show => {right}")
    }

    /// Calls whose first argument is none, that pass the room that the replay has, the step memory or 32 bits, and a
    /// slot that has no state. After an opening that the replay refuses comes one that it takes.
    fn not_run(&mut self) -> Result<()> {
        let right = self.run("show");
        for call in [
            "open x 3100",
            "len x back",
            "damage x 1",
            "slot x",
            "words x 1",
            "commit x",
            &edit("wobble", &[Arg::E(Envelope::new(7))]),
            "render 3FF0000000000000 0 0 0 1025",
            "to_buffer 3FF0000000000000 0000000000000000 0 1025",
            "damage 0 1028",
            "damage 19 0",
            "slot 18",
            "slot 19",
            "words 20481 1",
            "words 20479 2",
            "len 20481 back",
            "open 7 20481",
            "open 4294967303 3100",
        ]
        .into_iter()
        .filter(|call| holds(call))
        {
            writeln!(self.out, "session s {call} => {right}")?;
        }
        self.start()
    }

    /// Lines whose call can't be read, or that have no answer.
    fn malformed(&mut self) -> Result<()> {
        let scale = edit("scale", &[Arg::F(3.0)]);
        let longer = format!("len 3100 {scale}");
        let [first, second] = [7, 1].map(|target| Arg::E(Envelope::new(target)));
        let commit = format!("commit{}", arguments(&[first, second, Arg::D(0.5)]));
        let longer_commit = format!("len 3100 {commit}");
        let calls = [
            OPEN,
            &scale,
            "back",
            "forward",
            "show",
            "damage 0 1",
            "memory",
            "slot 0",
            "words 3084 1",
            &longer,
            &commit,
            &longer_commit,
            "len 3100 back",
        ];
        self.start()?;
        for call in calls.into_iter().filter(|call| holds(call)) {
            let right = self.run(call);
            let word = word(call);
            let mut lines = malformed(call, &right);
            lines.push(format!(
                "{}{} => {right}",
                another_letter(word),
                &call[word.len()..]
            ));
            for line in lines {
                writeln!(self.out, "session s {line}")?;
                self.start()?;
            }
        }
        let right = self.run("show");
        writeln!(self.out, "session s wobble => {right}")?;
        writeln!(self.out, "session s edit wobble => {right}")?;
        self.start()
    }
}

pub fn write(out: &mut impl Write, r: &mut Random) -> Result<()> {
    let mut script = Script {
        out,
        sessions: Sessions::new(),
        told: BTreeSet::new(),
    };
    script.edits_and_steps()?;
    script.looks()?;
    script.refusals()?;
    script.lookups(r)?;
    script.malformed()?;
    script.counts()?;
    script.not_run()?;
    wrong_idle::write(&mut script, r)?;
    wrong_commits::write(&mut script, r)?;
    for (call, _) in weighted_calls() {
        assert!(script.told.contains(call), "no wrong line of a session's {call}");
    }
    Ok(())
}
