//! A session on the envelope by value, as document 01 has it: the same tests, and the same 1,028 words
//! for each stored state.
use crate::edits;
use crate::fixed::{Edited, Envelope, Point, PLACES, UNUSED};
use source::curve::CurveType;

pub const WORDS: usize = 4 + 4 * PLACES;

#[derive(Clone, Copy)]
pub struct Session {
    pub envelope: Envelope,
    pub length: usize,
    pub at: usize,
    pub kept: usize,
    pub ahead: usize,
}

/// Refusal 0 and the session after the call, or the refusal's number and the session it got.
pub struct Answer {
    refusal: u32,
    session: Session,
}

impl Answer {
    #[inline(always)]
    pub fn accepted(self) -> Session {
        debug_assert_eq!(self.refusal, 0);
        self.session
    }
}

pub fn code(c: CurveType) -> u64 {
    match c {
        CurveType::Linear => 0,
        CurveType::Exponential => 1,
        CurveType::Logarithmic => 2,
        CurveType::SCurve => 3,
        CurveType::Stepped => 4,
        CurveType::Bezier(..) => 5,
        CurveType::Elastic => 6,
        CurveType::Bounce => 7,
        CurveType::Back => 8,
        CurveType::Circular => 9,
        CurveType::QuadIn => 10,
        CurveType::QuadOut => 11,
        CurveType::QuadInOut => 12,
        CurveType::CubicIn => 13,
        CurveType::CubicOut => 14,
        CurveType::CubicInOut => 15,
        CurveType::QuartIn => 16,
        CurveType::QuartOut => 17,
        CurveType::QuartInOut => 18,
        CurveType::QuintIn => 19,
        CurveType::QuintOut => 20,
        CurveType::QuintInOut => 21,
    }
}

pub fn curve(code: u64, cp1: f32, cp2: f32) -> CurveType {
    match code {
        1 => CurveType::Exponential,
        2 => CurveType::Logarithmic,
        3 => CurveType::SCurve,
        4 => CurveType::Stepped,
        5 => CurveType::Bezier(cp1, cp2),
        7 => CurveType::Bounce,
        8 => CurveType::Back,
        9 => CurveType::Circular,
        10 => CurveType::QuadIn,
        11 => CurveType::QuadOut,
        12 => CurveType::QuadInOut,
        13 => CurveType::CubicIn,
        14 => CurveType::CubicOut,
        15 => CurveType::CubicInOut,
        16 => CurveType::QuartIn,
        17 => CurveType::QuartOut,
        18 => CurveType::QuartInOut,
        19 => CurveType::QuintIn,
        20 => CurveType::QuintOut,
        21 => CurveType::QuintInOut,
        _ => CurveType::Linear,
    }
}

fn join(high: u32, low: u32) -> u64 {
    (high as u64) << 32 | low as u64
}

fn limit_bits(l: Option<f32>) -> u32 {
    l.map_or(0, f32::to_bits)
}

fn settings(e: &Envelope) -> [u64; 4] {
    let flags = e.enabled as u32
        + 2 * e.min_value.is_some() as u32
        + 4 * e.max_value.is_some() as u32
        + 8 * e.step_size.is_some() as u32
        + 16 * e.hard as u32;
    [
        join(flags, e.target),
        e.count as u64,
        join(limit_bits(e.max_value), limit_bits(e.min_value)),
        limit_bits(e.step_size) as u64,
    ]
}

fn point_words(p: &Point) -> [u64; 4] {
    let (cp1, cp2) = match p.curve {
        CurveType::Bezier(a, b) => (a, b),
        _ => (0.0, 0.0),
    };
    [
        p.time.to_bits(),
        p.sample_position.unwrap_or(0),
        join(cp2.to_bits(), cp1.to_bits()),
        (code(p.curve) * 2 + p.sample_position.is_some() as u64) << 32 | p.value.to_bits() as u64,
    ]
}

fn write_state(e: &Envelope, words: &mut [u64]) {
    words[..4].copy_from_slice(&settings(e));
    for (p, w) in e.places.iter().zip(words[4..WORDS].chunks_exact_mut(4)) {
        w.copy_from_slice(&point_words(p));
    }
}

fn point_of(w: &[u64]) -> Point {
    let tag = w[3] >> 32;
    Point {
        time: f64::from_bits(w[0]),
        sample_position: (tag % 2 == 1).then_some(w[1]),
        value: f32::from_bits(w[3] as u32),
        curve: curve(tag / 2, f32::from_bits(w[2] as u32), f32::from_bits((w[2] >> 32) as u32)),
    }
}

/// Refusal 12: the words must be those of a valid envelope.
fn read_state(words: &[u64]) -> Result<Envelope, u32> {
    let flags = words[0] >> 32;
    let limit = |flag: u64, bits: u64| (flags & flag != 0).then_some(f32::from_bits(bits as u32));
    let mut e = Envelope {
        target: words[0] as u32,
        count: words[1] as usize,
        places: [UNUSED; PLACES],
        enabled: flags & 1 != 0,
        min_value: limit(2, words[2]),
        max_value: limit(4, words[2] >> 32),
        step_size: limit(8, words[3]),
        hard: flags & 16 != 0,
    };
    let mut same = true;
    for (p, w) in e.places.iter_mut().zip(words[4..].chunks_exact(4)) {
        *p = point_of(w);
        same &= point_words(p) == *w;
    }
    if same && settings(&e) == words[..4] && e.is_valid() {
        Ok(e)
    } else {
        Err(12)
    }
}

impl Session {
    fn depth(&self) -> usize {
        self.length / WORDS
    }

    fn in_order(&self) -> bool {
        let depth = self.depth();
        self.kept <= depth
            && self.ahead <= depth - self.kept
            && if depth == 0 { self.at == 0 } else { self.at < depth }
    }

    fn after(&self) -> usize {
        if self.at + 1 < self.depth() {
            self.at + 1
        } else {
            0
        }
    }

    fn before(&self) -> usize {
        if self.at == 0 {
            self.depth() - 1
        } else {
            self.at - 1
        }
    }
}

fn refused(session: Session, refusal: u32) -> Answer {
    Answer { refusal, session }
}

fn moved(session: Session) -> Answer {
    Answer { refusal: 0, session }
}

fn slot(memory: &mut [u64], k: usize) -> &mut [u64] {
    &mut memory[k * WORDS..(k + 1) * WORDS]
}

fn same_bits(a: Option<f32>, b: Option<f32>) -> bool {
    a.map(f32::to_bits) == b.map(f32::to_bits)
}

fn same_curve(c: CurveType, d: CurveType) -> bool {
    match (c, d) {
        (CurveType::Bezier(a, b), CurveType::Bezier(x, y)) => a.to_bits() == x.to_bits() && b.to_bits() == y.to_bits(),
        _ => code(c) == code(d),
    }
}

fn same_point(p: &Point, q: &Point) -> bool {
    p.time.to_bits() == q.time.to_bits()
        && p.sample_position == q.sample_position
        && p.value.to_bits() == q.value.to_bits()
        && same_curve(p.curve, q.curve)
}

/// Request F-2's test, of two valid envelopes: every bit, settings and count included.
fn bit_equal(a: &Envelope, b: &Envelope) -> bool {
    a.target == b.target
        && a.enabled == b.enabled
        && a.hard == b.hard
        && same_bits(a.min_value, b.min_value)
        && same_bits(a.max_value, b.max_value)
        && same_bits(a.step_size, b.step_size)
        && a.count == b.count
        && a.points().iter().zip(b.points()).all(|(p, q)| same_point(p, q))
}

/// An edit by what it makes of the envelope. One that alters no bit leaves all as it is.
#[inline(always)]
fn edit(s: Session, made: impl Fn(Envelope) -> Edited, memory: &mut [u64]) -> Answer {
    if !s.in_order() {
        return refused(s, 1);
    }
    if memory.len() != s.length {
        return refused(s, if s.envelope.is_valid() { 11 } else { 1 });
    }
    let Edited { refusal, envelope } = made(s.envelope);
    if refusal != 0 {
        return refused(s, refusal);
    }
    if bit_equal(&s.envelope, &envelope) {
        return moved(s);
    }
    let depth = s.depth();
    if depth > 0 {
        write_state(&s.envelope, slot(memory, s.at));
    }
    let (at, kept) = (s.after(), (s.kept + 1).min(depth));
    moved(Session { envelope, at, kept, ahead: 0, ..s })
}

#[inline(never)]
pub fn shift_points(s: Session, offset: f64, memory: &mut [u64]) -> Answer {
    edit(s, |e| edits::shift_points(e, offset), memory)
}

#[inline(never)]
pub fn add_point(s: Session, p: Point, memory: &mut [u64]) -> Answer {
    edit(s, |e| edits::add_point(e, p), memory)
}

/// An edit with another envelope: 1 for either comes first.
#[inline(never)]
pub fn merge(s: Session, other: Envelope, offset: f64, memory: &mut [u64]) -> Answer {
    if memory.len() != s.length && !other.is_valid() {
        return refused(s, 1);
    }
    edit(s, |e| edits::merge(e, other, offset), memory)
}

/// Request F-3's ticket.
#[derive(Clone, Copy)]
pub struct Ticket {
    pub first: Envelope,
    pub second: Envelope,
    pub offset: f64,
}

/// How many points the merge will give, or its refusal, and the ticket.
#[inline(never)]
pub fn ask(first: Envelope, second: Envelope, offset: f64) -> (Result<usize, u32>, Ticket) {
    let Edited { refusal, envelope } = edits::merge(first, second, offset);
    let answer = if refusal == 0 { Ok(envelope.count) } else { Err(refusal) };
    (answer, Ticket { first, second, offset })
}

/// The ticket's merge: 1 for the session and both of its envelopes, 11, then 14.
#[inline(never)]
pub fn commit(s: Session, t: Ticket, memory: &mut [u64]) -> Answer {
    if t.first.is_valid() && bit_equal(&s.envelope, &t.first) {
        return merge(s, t.second, t.offset, memory);
    }
    if !(s.in_order() && s.envelope.is_valid() && t.first.is_valid() && t.second.is_valid()) {
        return refused(s, 1);
    }
    refused(s, if memory.len() == s.length { 14 } else { 11 })
}

/// A step: the envelope and the state in a slot change places.
#[inline(always)]
fn step(s: Session, left: usize, k: usize, at: usize, kept: usize, ahead: usize, memory: &mut [u64]) -> Answer {
    if !(s.in_order() && s.envelope.is_valid()) {
        return refused(s, 1);
    }
    if memory.len() != s.length {
        return refused(s, 11);
    }
    if left == 0 {
        return refused(s, 10);
    }
    let words = slot(memory, k);
    let Ok(envelope) = read_state(words) else {
        return refused(s, 12);
    };
    write_state(&s.envelope, words);
    moved(Session { envelope, at, kept, ahead, ..s })
}

#[inline(never)]
pub fn back(s: Session, memory: &mut [u64]) -> Answer {
    let k = s.before();
    step(s, s.kept, k, k, s.kept.wrapping_sub(1), s.ahead + 1, memory)
}

#[inline(never)]
pub fn forward(s: Session, memory: &mut [u64]) -> Answer {
    let (k, next) = (s.at, s.after());
    step(s, s.ahead, k, next, s.kept + 1, s.ahead.wrapping_sub(1), memory)
}
