//! Random tickets (request F-3): a first envelope, and a second one with an offset that lets its points fall on the
//! first's, between them or together, pass the room that there is, or overflow. In a script of a session the first is
//! the session's envelope, one that it had, or one that differs from it in one thing.
use crate::changed::changed;
use crate::domain::ROOM;
use crate::edges::{near_double, sign};
use crate::edits::to_merge;
use crate::envelopes::{sort, NOT_FINITE};
use crate::idle::{given, moved_back, part_of};
use crate::random::Random;
use crate::records::{AutomationPoint, CurveType, Envelope};
use crate::same_bits::{differences, same_bits};
use crate::session::Session;
use crate::text::Arg::{self, *};

/// What an ask was given.
#[derive(Clone)]
pub struct Ticket {
    pub first: Envelope,
    pub second: Envelope,
    pub offset: f64,
}

impl Ticket {
    /// With a first envelope, and a second one and an offset in one of these ways.
    fn new(r: &mut Random, first: Envelope, ways: &[Way]) -> Self {
        let (second, offset) = merged(r, &first, ways);
        Ticket {
            first,
            second,
            offset,
        }
    }

    pub fn arguments(&self) -> Vec<Arg> {
        vec![E(self.first.clone()), E(self.second.clone()), D(self.offset)]
    }

    /// What a session with this envelope makes of a commit: it is idle, or counts, or is refused.
    pub fn leaves(&self, e: &Envelope) -> &'static str {
        let merge = ("merge", self.arguments()[1..].to_vec());
        match given(e, &merge) {
            Some(f) if self.is_of(e) && same_bits(e, &f) => "idle",
            Some(_) if self.is_of(e) => "commit",
            _ => "refused",
        }
    }

    /// Whether the first is this envelope.
    fn is_of(&self, e: &Envelope) -> bool {
        same_bits(&self.first, e)
    }
}

/// A second envelope and an offset, for a first one.
type Way = fn(&mut Random, &Envelope) -> (Envelope, f64);

/// The next ticket of a script: one that was committed before, the last or another or one that is good now; a
/// fresh one; one whose first the session had; one whose first differs from the session's envelope in one thing, or
/// isn't valid.
pub fn next(r: &mut Random, s: &Session, before: &[Ticket]) -> Ticket {
    let e = s.envelope();
    let good = |r: &mut Random| {
        let good: Vec<&Ticket> = before.iter().filter(|t| t.is_of(&e)).collect();
        (!good.is_empty()).then(|| r.one_of(&good).clone())
    };
    let again = match r.below(24) {
        0..=2 => before.last().cloned(),
        3 if !before.is_empty() => Some(r.one_of(before)),
        4..=8 => good(r),
        _ => None,
    };
    again.unwrap_or_else(|| {
        let first = match r.below(16) {
            0..=2 => changed(r, &e),
            3 | 4 => r.one_of(&s.envelopes()),
            5 => r.spoiled(e.clone()),
            _ => e.clone(),
        };
        Ticket { first, ..fresh(r, s) }
    })
}

/// A ticket of the session's envelope. Where steps stand ahead more of them are idle, so that they stand for some
/// time; where there are many points, all are idle, nearly so, or refused.
fn fresh(r: &mut Random, s: &Session) -> Ticket {
    const ANY: &[Way] = &[
        part_of, part_of, part_of, nearly, nearly, nearly, to_merge, to_merge, to_merge, meeting, meeting,
        zeros, zeros, falling, far,
    ];
    const MANY: &[Way] = &[part_of, part_of, nearly, nearly, far];
    const IDLE: &[Way] = &[part_of];
    const OVER: &[Way] = &[over];
    let (e, ahead) = (s.envelope(), s.ahead() > 0 && r.once_in(2));
    let ways = match e.rust.points.len() {
        _ if ahead => IDLE,
        _ if r.once_in(24) => OVER,
        0..=16 => ANY,
        _ => MANY,
    };
    Ticket::new(r, e, ways)
}

/// The parts of an ask.
pub fn asked(r: &mut Random) -> Vec<Arg> {
    const WAYS: [Way; 16] = [
        to_merge, to_merge, to_merge, to_merge, to_merge, meeting, meeting, meeting, meeting, meeting, zeros,
        zeros, falling, falling, far, past,
    ];
    let first = r.envelope_of(points_of_first);
    let mut ticket = Ticket::new(r, first, &WAYS);
    if r.once_in(30) {
        ticket.first = r.spoiled(ticket.first);
    }
    ticket.arguments()
}

fn points_of_first(r: &mut Random) -> u64 {
    match r.below(50) {
        0 => 256,
        1 => 255,
        2 => r.below(257),
        3..=6 => 0,
        7..=11 => 1,
        _ => 2 + r.below(9),
    }
}

/// In one of these ways; now and then the second is not valid, or the offset not finite.
fn merged(r: &mut Random, first: &Envelope, ways: &[Way]) -> (Envelope, f64) {
    let way = r.one_of(ways);
    let (second, offset) = way(r, first);
    let (spoil, not_finite) = (r.once_in(24), r.once_in(30));
    let second = if spoil { r.spoiled(second) } else { second };
    let offset = if not_finite { r.one_of(&NOT_FINITE) } else { offset };
    (second, offset)
}

/// The first changed in one thing: all its points, or those alone that differ. A setting leaves no trace in a merge.
fn nearly(r: &mut Random, first: &Envelope) -> (Envelope, f64) {
    let mut second = changed(r, first);
    let places: Vec<usize> = differences(first, &second).iter().map(|d| d.1).collect();
    let (all, mut place) = (r.once_in(2), 0..);
    second.rust.points.retain(|_| {
        let place = place.next().unwrap();
        all || places.contains(&place)
    });
    (second, -0.0)
}

/// Points that fall on some of the first's, or on all, with other values; and some that may not.
fn meeting(r: &mut Random, first: &Envelope) -> (Envelope, f64) {
    let (mut second, offset) = part_of(r, first);
    for p in &mut second.rust.points {
        if r.once_in(2) {
            p.value = r.single();
        }
    }
    let more = r.envelope_of(|r| r.below(4));
    second.rust.points.extend(more.rust.points);
    second.rust.points.truncate(ROOM);
    sort(&mut second);
    (second, offset)
}

/// Times about both zeros, which an offset of 0.0 lets fall together and one of -0.0 leaves apart; or to a zero of
/// the first's.
fn zeros(r: &mut Random, first: &Envelope) -> (Envelope, f64) {
    let least = f64::from_bits(1);
    let mut second = r.envelope_of(|_| 0);
    for time in [-1.0, -least, -0.0, 0.0, least, 1.0] {
        if r.below(3) > 0 {
            let (value, control) = (r.single(), r.single());
            let curve = r.one_of(&[CurveType::Linear, CurveType::Bezier(control, 0.75)]);
            second
                .rust
                .points
                .push(AutomationPoint::with_curve(time, value, curve));
        }
    }
    let at = first.rust.points.first().map_or(2.0, |p| p.time);
    (second, r.one_of(&[0.0, 0.0, -0.0, -0.0, least, -least, 1.0, at]))
}

/// Points so close to one another that an offset, being large, lets some or all of them fall together.
fn falling(r: &mut Random, first: &Envelope) -> (Envelope, f64) {
    let mut second = r.envelope_of(|r| 2 + r.below(9));
    let offset = sign(r) * r.one_of(&[1e9, 1e15, 1e16, 1e17, 1e300]);
    if r.once_in(2) {
        // some of them on points of the first, and some not
        let near = first.rust.points.iter().map(|p| moved_back(p, offset));
        second.rust.points.extend(near.take(8));
        sort(&mut second);
    }
    (second, offset)
}

/// Times that overflow, all of them or the last alone, or just don't; now and then there are more of them than there
/// is room for as well.
fn far(r: &mut Random, _: &Envelope) -> (Envelope, f64) {
    let (half, side) = (f64::MAX / 2.0, sign(r));
    let count = if r.once_in(8) {
        ROOM
    } else {
        1 + r.below(5) as usize
    };
    let mut second = r.envelope_of(|_| 0);
    for k in 0..count {
        let time = side * half * (1.0 - 2.0 * k as f64 / count as f64);
        second.rust.points.push(AutomationPoint::new(time, r.single()));
    }
    sort(&mut second);
    let beside = near_double(r, half, 2);
    (second, side * r.one_of(&[half, beside, half * 1.5, f64::MAX]))
}

fn room(first: &Envelope) -> usize {
    ROOM.saturating_sub(first.rust.points.len())
}

/// As many points as there is room for, one more or less, or as many as an envelope may have.
fn past(r: &mut Random, first: &Envelope) -> (Envelope, f64) {
    let room = room(first);
    let count = r.one_of(&[room.saturating_sub(1), room, room, room + 1, room + 1, ROOM]);
    after(r, first, count.min(ROOM))
}

/// A point more than there is room for, seldom one less.
fn over(r: &mut Random, first: &Envelope) -> (Envelope, f64) {
    let room = room(first);
    let count = if r.once_in(16) { room } else { room + 1 };
    after(r, first, count.min(ROOM))
}

/// So many points after the first's; in the places that are left, points of the first.
fn after(r: &mut Random, first: &Envelope, count: usize) -> (Envelope, f64) {
    let last = first.rust.points.last().map_or(0.0, |p| p.time);
    let offset = r.one_of(&[0.0, -0.0, 64.0, -0.25]);
    let new = (0..count).map(|k| AutomationPoint::new(last + 1.0 + k as f64, k as f32));
    let again = first.rust.points.iter().take(ROOM - count).cloned();
    let mut second = r.envelope_of(|_| 0);
    second.rust.points = again.chain(new).map(|p| moved_back(&p, offset)).collect();
    sort(&mut second);
    (second, offset)
}
