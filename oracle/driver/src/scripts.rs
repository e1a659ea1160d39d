//! Scripts of sessions, made a call at a time from how the session stands. A part of the edits is idle or
//! nearly idle (request F-2), some calls are commits (request F-3), and calls that show what such an edit or
//! commit left come after it.
use crate::forms::is_call;
use crate::idle::{is_idle, Edit};
use crate::nearly::towards;
use crate::random::Random;
use crate::records::{empty_place, AutomationPoint, CurveType, Envelope};
use crate::session::Session;
use crate::text::Arg::{self, *};
use crate::tickets::{self, Ticket};

/// Of a hundred edits, how many are idle, nearly idle, or lead to envelopes on which more edits can be that.
/// The others are any. Of a hundred calls, how many are commits or show what one left, beside those that the
/// table of calls has. And the lengths of the step memory.
pub struct Mix {
    idle: u64,
    nearly: u64,
    leading: u64,
    commits: u64,
    pub lengths: &'static [u64],
}

const LENGTHS: &[u64] = &[
    0,
    1027,
    1028,
    1029,
    2056,
    2056,
    3000,
    5140,
    5141,
    10280 + 1027,
    16384,
];

pub const PLAIN: Mix = Mix {
    idle: 6,
    nearly: 8,
    leading: 2,
    commits: 0,
    lengths: LENGTHS,
};

pub const IDLE: Mix = Mix {
    idle: 40,
    nearly: 36,
    leading: 10,
    commits: 0,
    lengths: LENGTHS,
};

pub const COMMITS: Mix = Mix {
    idle: 10,
    nearly: 10,
    leading: 30,
    commits: 75,
    lengths: &[0, 1027, 1028, 1029, 2056, 3000, 3084, 3100, 5141, 16448, 19452],
};

/// A script: what its last line was, an opening at first, its last edit, and the tickets that were committed, of which
/// the session may have refused some.
pub struct Script {
    mix: &'static Mix,
    last: &'static str,
    edit: Option<Edit>,
    tickets: Vec<Ticket>,
}

impl Script {
    pub fn new(mix: &'static Mix) -> Self {
        Script {
            mix,
            last: "open",
            edit: None,
            tickets: vec![],
        }
    }

    /// The next call, and the words that follow its name.
    pub fn call(&mut self, r: &mut Random, s: &Session) -> (String, Vec<Arg>) {
        let word = self.word(r, s);
        if word == "commit" {
            return self.commit(r, s);
        }
        let edit = self.next_edit(r, s);
        let call = r.session_call(s, word, edit.clone());
        self.last = word;
        if call.0.starts_with("edit") {
            let idle = is_idle(&s.envelope(), &edit);
            self.last = if idle { "idle" } else { "edit" };
            self.edit = Some(edit);
        }
        call
    }

    /// A commit, now and then with a length of the step memory, mostly another one.
    fn commit(&mut self, r: &mut Random, s: &Session) -> (String, Vec<Arg>) {
        let ticket = tickets::next(r, s, &self.tickets);
        let length = match r.below(40) {
            0..=3 => r.other_length(s),
            _ => s.words(),
        };
        let refused = length != s.words();
        self.last = if refused {
            "refused"
        } else {
            ticket.leaves(&s.envelope())
        };
        self.tickets.push(ticket.clone());
        let named = refused || r.once_in(40);
        let call = if named {
            format!("len {length} commit")
        } else {
            "commit".into()
        };
        (call, ticket.arguments())
    }

    /// The next call's word: often one that shows what the last one left.
    fn word(&self, r: &mut Random, s: &Session) -> &'static str {
        let (shows, share) = match self.mix.commits {
            0 => (self.after_edit(s), self.mix.idle),
            share => (self.after_commit(s), share),
        };
        if shows.is_empty() || r.below(100) >= share {
            return r.session_word();
        }
        let word = r.one_of(shows);
        if is_call(word) {
            word
        } else {
            "edit"
        }
    }

    /// After an idle edit a step forward, if one stands ahead, or what shows the step memory; after an opening, a
    /// damage or a step an edit.
    fn after_edit(&self, s: &Session) -> &'static [&'static str] {
        match self.last {
            "idle" if s.ahead() > 0 => &["forward", "forward", "memory", "slot", "words", "edit"],
            "idle" => &["back", "memory", "memory", "slot", "words", "edit"],
            "open" | "back" | "forward" | "damage" => &["edit"],
            _ => &[],
        }
    }

    /// After a commit that counts a step back, or what shows the step memory; after an idle one also a step forward,
    /// if one stands ahead; after a refused one what shows that all stands as before. After every call a commit,
    /// mostly so after a step.
    fn after_commit(&self, s: &Session) -> &'static [&'static str] {
        match self.last {
            "idle" if s.ahead() > 0 => &["forward", "forward", "memory", "slot", "words", "commit"],
            "idle" => &["back", "memory", "slot", "words", "commit"],
            "commit" => &["commit", "back", "back", "memory", "slot", "edit"],
            "refused" => &[
                "commit", "commit", "commit", "edit", "back", "forward", "memory", "show",
            ],
            "back" => &["commit", "commit", "commit", "back", "forward", "memory"],
            "forward" => &["commit", "commit", "back", "slot"],
            _ => &["commit", "commit", "edit"],
        }
    }

    /// Where steps stand ahead more edits are idle, so that they stand for some time.
    fn next_edit(&self, r: &mut Random, s: &Session) -> Edit {
        let (e, m, part) = (s.envelope(), self.mix, r.below(100));
        let idle = if s.ahead() > 0 { m.idle * 3 / 2 } else { m.idle };
        let edit = if part < idle {
            Some(self.idle(r, &e))
        } else if part < idle + m.nearly {
            nearly(r, s)
        } else if part < idle + m.nearly + m.leading {
            Some(leading(r, &e))
        } else {
            None
        };
        edit.unwrap_or_else(|| r.session_edit(&e))
    }

    /// An idle edit, the last one again if that is idle, or one that would be idle and is refused.
    fn idle(&self, r: &mut Random, e: &Envelope) -> Edit {
        match (r.below(12), &self.edit) {
            (0, _) => r.refused_idle(e),
            (1..=4, Some(last)) if is_idle(e, last) => last.clone(),
            _ => r.idle_edit(e),
        }
    }
}

/// An edit that changes one thing; takes back the last one; or gives what a step forward would.
fn nearly(r: &mut Random, s: &Session) -> Option<Edit> {
    let e = s.envelope();
    match r.below(8) {
        0 => towards(&e, &s.before()?),
        1 => towards(&e, &s.next()?),
        _ => r.nearly_idle(&e),
    }
}

/// To an envelope on which more edits are idle or nearly idle: on a grid or beside it, the same from both
/// ends, without settings and curves, with zeros of either sign, with Bezier curves, with all times below 0,
/// empty, full.
fn leading(r: &mut Random, e: &Envelope) -> Edit {
    let at = r.one_of(&[0.3, 0.6, 0.7, 1.2, -0.0, -0.0, -0.0]);
    let (length, value) = (r.below(40) as f64 / 8.0, r.one_of(&[0.0, -0.0, 0.5]));
    let last = e.rust.points.last().map_or(0.0, |p| p.time);
    match r.below(40) {
        0..=3 => ("quantize_time", vec![D(r.one_of(&[0.1, 0.125, 0.5, 1.0]))]),
        4..=7 => ("add_point", vec![P(AutomationPoint::new(at, value))]),
        8..=11 => {
            let [low, high] = [value, 0.75].map(|x| r.one_of(&[x, -x]));
            let point = AutomationPoint::with_curve(length, value, CurveType::Bezier(low, high));
            ("add_point", vec![P(point)])
        }
        12..=17 => {
            let (fade, linear) = (length / 2.0, C(CurveType::Linear));
            r.one_of(&[
                ("pulse", vec![D(fade), D(length), D(fade), linear.clone()]),
                ("ramp", vec![D(length), F(value), F(value), linear]),
            ])
        }
        18..=22 => {
            let duration = r.double();
            let op = r.one_of(&["fade_in", "fade_out"]);
            (op, vec![D(duration), C(r.curve())])
        }
        23 => ("pulse", vec![D(length), D(0.5), D(0.25), C(r.curve())]),
        24..=31 => (r.one_of(&["min", "max"]), vec![E(e.clone())]),
        32..=34 => ("shift", vec![D(-last - r.one_of(&[1.0, 0.5, 0.0]))]),
        35 => ("trim", vec![D(1.0), D(0.0)]),
        36..=38 => ("add_point", vec![P(empty_place())]),
        _ => ("merge", vec![E(filling(r, e)), D(0.0)]),
    }
}

/// As many points as an envelope lacks to be full, or to a point less, all after its own.
fn filling(r: &mut Random, e: &Envelope) -> Envelope {
    let last = e.rust.points.last().map_or(0.0, |p| p.time);
    let mut other = r.envelope_of(|_| 256);
    let lacks = 256 - e.rust.points.len();
    let lacks = lacks.saturating_sub(r.below(2) as usize);
    other.rust.points.truncate(lacks);
    for (k, p) in other.rust.points.iter_mut().enumerate() {
        p.time = last + 1.0 + k as f64;
    }
    other
}
