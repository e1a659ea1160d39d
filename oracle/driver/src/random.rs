//! Random calls. The same seed gives the same calls, on any machine.
use crate::domain::MOST;
use crate::edges;
use crate::edits;
use crate::forms::{call_kinds, is_lookup, session_edits, signature, weighted_calls};
use crate::idle::Edit;
use crate::records::{curve_of, AutomationPoint, CurveType, Envelope};
use crate::session::Session;
use crate::sheets;
use crate::text::{sheet, Arg};
use crate::tickets;

/// SplitMix64.
pub struct Random(pub u64);

impl Random {
    pub fn next(&mut self) -> u64 {
        self.0 = self.0.wrapping_add(0x9E37_79B9_7F4A_7C15);
        let mut z = self.0;
        z = (z ^ (z >> 30)).wrapping_mul(0xBF58_476D_1CE4_E5B9);
        z = (z ^ (z >> 27)).wrapping_mul(0x94D0_49BB_1331_11EB);
        z ^ (z >> 31)
    }

    pub fn below(&mut self, n: u64) -> u64 {
        self.next() % n
    }

    /// Once in n.
    pub fn once_in(&mut self, n: u64) -> bool {
        self.below(n) == 0
    }

    pub fn one_of<T: Clone>(&mut self, list: &[T]) -> T {
        list[self.below(list.len() as u64) as usize].clone()
    }

    /// From 0 up to 1, uniform.
    pub fn unit(&mut self) -> f64 {
        (self.next() >> 11) as f64 / (1u64 << 53) as f64
    }

    /// A finite f64.
    pub fn double(&mut self) -> f64 {
        match self.below(16) {
            0..=3 => (self.below(81) as f64 - 40.0) / 4.0,
            4..=7 => (self.unit() - 0.5) * 20.0,
            8 => 0.0,
            9 => -0.0,
            10 => self.unit() * 1e-3,
            11 => (self.unit() - 0.5) * 1e6,
            12 => (self.unit() * 2.0 - 1.0) * 1.7e308,
            13 => f64::from_bits(self.below(64) | self.below(2) << 63),
            14 => loop {
                let x = f64::from_bits(self.next());
                if x.is_finite() {
                    break x;
                }
            },
            _ => self.below(9) as f64,
        }
    }

    /// A finite f32.
    pub fn single(&mut self) -> f32 {
        match self.below(16) {
            0..=3 => (self.below(33) as f32 - 16.0) / 4.0,
            4..=7 => (self.unit() as f32 - 0.5) * 4.0,
            8 => 0.0,
            9 => -0.0,
            10 => f32::from_bits(self.below(16) as u32 | (self.below(2) as u32) << 31),
            11 => (self.unit() as f32 - 0.5) * 2000.0,
            12 => (self.unit() as f32 * 2.0 - 1.0) * 3.4e38,
            13 => loop {
                let x = f32::from_bits(self.next() as u32);
                if x.is_finite() {
                    break x;
                }
            },
            _ => self.unit() as f32,
        }
    }

    pub fn word(&mut self) -> u64 {
        match self.below(8) {
            0 => self.below(10),
            1..=3 => self.below(500_000),
            4 => self.next(),
            5 => u64::MAX - self.below(300),
            6 => self.below(1 << 33),
            _ => self.below(3000),
        }
    }

    pub fn optional(&mut self) -> Option<f32> {
        if self.once_in(2) {
            None
        } else {
            Some(self.single())
        }
    }

    /// One of the 21 curves.
    pub fn curve(&mut self) -> CurveType {
        let code = self.below(21);
        let (a, b) = (self.single(), self.single());
        curve_of(if code < 6 { code } else { code + 1 }, a, b).unwrap()
    }

    /// A time, often at or near that of a point.
    fn time(&mut self, near: Option<&AutomationPoint>) -> f64 {
        let x = match near {
            None => self.double(),
            Some(p) => match self.below(4) {
                0 => p.time,
                1 => p.time + 0.001 * self.unit() * 2.0 - 0.001,
                2 => p.time + self.unit(),
                _ => -p.time,
            },
        };
        if x.is_finite() {
            x
        } else {
            1.0
        }
    }

    /// A count of an operation, after the arguments `before`.
    fn count(&mut self, op: &str, before: &[Arg]) -> u64 {
        use Arg::*;
        match (op, before) {
            ("peaks", [E(e), ..]) => self.length(e.rust.find_peaks().len() as u64),
            ("valleys", [E(e), ..]) => self.length(e.rust.find_valleys().len() as u64),
            ("sheet", [E(e)]) => self.length(sheet(e).len() as u64),
            ("render", [_, D(_)]) | ("render", [_, D(_), N(_)]) if self.once_in(16) => self.large(),
            ("render", [E(e), D(rate)]) => self.first_sample(e, *rate, MOST),
            ("render", [_, _, _, N(count)]) => self.place(*count),
            ("to_buffer", [_, D(rate), D(duration)]) => self.place((duration * rate) as u64),
            ("render", [_, _, _, N(count), N(place)]) => self.run_length(*count, *place),
            ("to_buffer", [_, D(rate), D(duration), N(place)]) => {
                self.run_length((duration * rate) as u64, *place)
            }
            _ => self.below(14),
        }
    }

    /// A number about 2^53, 2^63 or 2^64.
    fn large(&mut self) -> u64 {
        let about = self.one_of(&[1 << 53, 1 << 63, u64::MAX - 1]);
        about - 1 + self.below(3)
    }

    /// The place of a run's first sample. A large one is past the buffer's end, where a run of none is accepted.
    fn place(&mut self, count: u64) -> u64 {
        if self.once_in(if count == 0 { 2 } else { 16 }) {
            return self.large();
        }
        self.below(14)
    }

    /// The length of a run's buffer: never more than 1,024 places.
    fn run_length(&mut self, count: u64, place: u64) -> u64 {
        let needed = place.saturating_add(count);
        let needed = if needed > 1000 { self.below(30) } else { needed };
        self.length(needed)
    }

    /// The length of a lent buffer: often just what is needed, or one place less.
    fn length(&mut self, needed: u64) -> u64 {
        match self.below(6) {
            0 | 1 => needed,
            2 => needed.saturating_sub(1),
            3 => self.below(4),
            _ => needed + self.below(20),
        }
    }

    /// A number of an operation, after the arguments `before`.
    fn number(&mut self, op: &str, near: Option<&AutomationPoint>, before: &[Arg]) -> f64 {
        let x = match (op, before) {
            ("render" | "to_buffer" | "walk", [_]) => self.rate(),
            ("to_buffer" | "walk", [_, Arg::D(rate)]) => self.duration(*rate),
            _ => self.time(near),
        };
        match self.below(40) {
            0 => -x,
            1 => self.one_of(&[f64::INFINITY, f64::NEG_INFINITY, f64::NAN]),
            _ => x,
        }
    }

    fn argument(&mut self, op: &str, kind: char, before: &[Arg]) -> Arg {
        let first = match before.first() {
            Some(Arg::E(e)) => Some(e),
            _ => None,
        };
        let near = match first {
            Some(e) if !e.rust.points.is_empty() && self.once_in(2) => Some(self.one_of(&e.rust.points)),
            _ => None,
        };
        match (kind, first) {
            ('T', Some(e)) => Arg::D(self.lookup_time(e)),
            ('D' | 'T', _) => Arg::D(self.number(op, near.as_ref(), before)),
            ('U', Some(e)) => Arg::U(match before.get(1) {
                Some(Arg::U(from)) => self.last_sample(e, *from),
                _ if op == "range_samples" && self.once_in(12) => u64::MAX - self.below(1000),
                _ => self.lookup_sample(e),
            }),
            ('U', None) => Arg::U(self.word()),
            ('N', _) => Arg::N(self.count(op, before)),
            ('P', _) => {
                let q = match before.first() {
                    Some(Arg::P(q)) => Some(q),
                    _ => None,
                };
                Arg::P(self.point(near.as_ref(), q))
            }
            _ => {
                let e = match first {
                    None => self.envelope(),
                    Some(f) => self.second(op, f),
                };
                let spoil = self.once_in(if op == "valid" { 2 } else { 40 });
                Arg::E(if spoil { self.spoiled(e) } else { e })
            }
        }
    }

    /// A call of an operation.
    pub fn call(&mut self, op: &str) -> Vec<Arg> {
        let (kinds, group) = signature(op).unwrap_or_else(|| panic!("no operation {op}"));
        match group {
            'n' => edges::arguments(self, op),
            's' => vec![Arg::S(sheets::sheet(self))],
            'e' | 'c' | 'm' => edits::arguments(self, op),
            'a' => tickets::asked(self),
            _ => self.arguments_after(op, kinds, vec![]),
        }
    }

    /// The arguments that are given, and after them some of these kinds.
    fn arguments_after(&mut self, op: &str, kinds: &str, mut a: Vec<Arg>) -> Vec<Arg> {
        for kind in kinds.chars() {
            let x = self.argument(op, kind, &a);
            a.push(x);
        }
        a
    }

    /// The opening of a session, with a step memory of one of these lengths.
    pub fn opening(&mut self, lengths: &[u64]) -> String {
        let words = self.one_of(lengths);
        let target = self.one_of(&[0, 7, u32::MAX]);
        format!("s open {target} {words}")
    }

    /// Any edit of a session.
    pub fn session_edit(&mut self, e: &Envelope) -> Edit {
        if self.once_in(4) {
            return self.stop_edit(e);
        }
        let op = if self.once_in(8) {
            "add_point"
        } else {
            self.one_of(&session_edits())
        };
        (op, self.call(op)[1..].to_vec())
    }

    /// The arguments of a lookup or a run of a session, without the first envelope.
    pub fn session_lookup(&mut self, op: &str, e: &Envelope) -> Vec<Arg> {
        let (kinds, _) = signature(op).unwrap();
        self.arguments_after(op, &kinds[1..], vec![Arg::E(e.clone())])[1..].to_vec()
    }

    /// The word of a session's call, each as often as the table says.
    pub fn session_word(&mut self) -> &'static str {
        let calls = weighted_calls();
        let mut left = self.below(calls.iter().map(|c| c.1).sum());
        for (word, weight) in calls {
            if left < weight {
                return word;
            }
            left -= weight;
        }
        unreachable!("the weights' sum")
    }

    /// A call of a session by its word, and the words that follow its name. What can't be asked now is the
    /// edit.
    pub fn session_call(&mut self, s: &Session, word: &str, (op, a): Edit) -> (String, Vec<Arg>) {
        let edit = (format!("edit {op}"), a.clone());
        match word {
            "edit" => edit,
            "len" => {
                let other = self.other_length(s);
                match self.below(3) {
                    0 => (format!("len {other} back"), vec![]),
                    1 => (format!("len {other} forward"), vec![]),
                    _ => (format!("len {other} edit {op}"), a),
                }
            }
            "damage" if s.words() >= 1028 => {
                let point = 4 + 4 * self.below(256);
                let word = self.one_of(&[0, 1, 2, 3, point, point + 3]);
                (format!("damage {} {word}", self.below(s.words() / 1028)), vec![])
            }
            "slot" => match &s.whole()[..] {
                [] => edit,
                slots => (format!("slot {}", self.one_of(slots)), vec![]),
            },
            "words" => {
                let part = self.one_of(&s.unwritten());
                (self.some_words(part), vec![])
            }
            "damage" => edit,
            word if is_lookup(word) => (word.into(), self.session_lookup(word, &s.envelope())),
            word => (
                word.into(),
                self.arguments_after(word, call_kinds(word).unwrap(), vec![]),
            ),
        }
    }

    /// A length of the step memory that is mostly another than at the opening.
    pub fn other_length(&mut self, s: &Session) -> u64 {
        let words = s.words();
        self.one_of(&[words + 1, words + 1028, words.saturating_sub(1), 0])
    }

    /// All words of a part, or some.
    fn some_words(&mut self, part: std::ops::Range<u64>) -> String {
        let count = part.end - part.start;
        let (first, last) = match self.below(3) {
            0 => (0, count - 1),
            _ => (self.below(count), self.below(count)),
        };
        let (first, last) = (first.min(last), first.max(last));
        format!("words {} {}", part.start + first, last - first + 1)
    }
}
