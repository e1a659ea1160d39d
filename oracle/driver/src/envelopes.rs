//! Random envelopes, points, times and samples, with their edge cases: both zeros, spans that are
//! subnormal or whose width overflows, neighbouring numbers, limits that cross, steps of each sign,
//! limits that a step passes, with `hard` on and off, keys that tie, and envelopes that are not valid.
use crate::domain::key;
use crate::edges::{bits, near, near_double, sign};
use crate::idle::Edit;
use crate::random::Random;
use crate::records::{controls, AutomationPoint, CurveType, Envelope};
use crate::text::Arg;

/// What an envelope's times have in common.
#[derive(Clone, Copy)]
enum Times {
    Eighths,
    Many,
    Wild,
    Zeros,
    Tiny,
    Huge,
    /// Neighbours of a number.
    Close(f64),
}

/// What an envelope's values have in common.
#[derive(Clone, Copy)]
enum Values {
    Plain,
    Wild,
    Zeros,
    Huge,
    Alike(f32),
}

const AROUND_ZERO: [f64; 12] = [
    -2.0,
    -1.0,
    -1e-300,
    f64::from_bits(0x8000_0000_0000_0001),
    -0.0,
    0.0,
    f64::from_bits(1),
    f64::MIN_POSITIVE,
    1e-300,
    0.5,
    1.0,
    3.0,
];

pub const NOT_FINITE: [f64; 3] = [f64::NAN, f64::INFINITY, f64::NEG_INFINITY];

impl Random {
    fn times(&mut self, count: u64) -> Times {
        if count > 100 {
            return Times::Many;
        }
        match self.below(14) {
            0..=6 => Times::Eighths,
            7 | 8 => Times::Wild,
            9 | 10 => Times::Zeros,
            11 => Times::Tiny,
            12 => Times::Huge,
            _ => Times::Close(self.one_of(&[1.0, 0.5, -0.25, 1e-3, 300.0]) * (1.0 + self.unit())),
        }
    }

    fn time_of(&mut self, times: Times) -> f64 {
        match times {
            Times::Eighths => (self.below(200) as f64 - 60.0) / 8.0,
            Times::Many if self.once_in(2) => self.below(2000) as f64 / 8.0,
            Times::Many => self.unit() * 50.0,
            Times::Wild => self.double(),
            Times::Zeros => self.one_of(&AROUND_ZERO),
            Times::Tiny => f64::from_bits(bits(self, 53)) * sign(self),
            Times::Huge => (1.0 - 0.6 * self.unit()) * f64::MAX * sign(self),
            Times::Close(x) => near_double(self, x, 8),
        }
    }

    fn values(&mut self) -> Values {
        match self.below(12) {
            0..=5 => Values::Plain,
            6..=8 => Values::Wild,
            9 => Values::Zeros,
            10 => Values::Huge,
            _ => Values::Alike(self.single()),
        }
    }

    fn value_of(&mut self, values: Values) -> f32 {
        match values {
            Values::Plain => (self.unit() as f32 - 0.5) * 8.0,
            Values::Wild => self.single(),
            Values::Zeros => self.one_of(&[0.0, -0.0, 0.0, -0.0, 1.0, -1.0]),
            Values::Huge => (1.0 - 0.6 * self.unit() as f32) * f32::MAX * sign(self) as f32,
            Values::Alike(x) => x,
        }
    }

    fn number_of_points(&mut self) -> u64 {
        match self.below(400) {
            0 | 1 => 256,
            2 | 3 => 255,
            4 | 5 => 120 + self.below(60),
            6..=29 => 0,
            30..=65 => 1,
            66..=125 => 2,
            _ => 2 + self.below(7),
        }
    }

    pub fn envelope(&mut self) -> Envelope {
        self.envelope_of(Random::number_of_points)
    }

    /// An envelope with about as many points as the function says.
    pub fn envelope_of(&mut self, number_of_points: fn(&mut Random) -> u64) -> Envelope {
        let target = self.one_of(&[0, 1, 2, 3, 4, 4_294_967_295]);
        let mut e = Envelope::new(target);
        e.rust.enabled = !self.once_in(12);
        let count = number_of_points(self);
        let (times, values) = (self.times(count), self.values());
        for _ in 0..4 * count {
            if e.rust.points.len() as u64 == count {
                break;
            }
            let (time, value, curve) = (self.time_of(times), self.value_of(values), self.curve());
            e.rust.add_point(AutomationPoint {
                time,
                sample_position: None,
                value,
                curve,
            });
        }
        self.positions(&mut e);
        self.limits(&mut e);
        // hard in half of all, and mostly where it matters
        if self.below(5) < 2 {
            self.stops(&mut e);
            e.hard = !self.once_in(4);
        } else {
            e.hard = self.once_in(3);
        }
        e
    }

    // ---- positions

    /// Positions for no point, for all, for some; with keys that mostly rise, or that tie; or times
    /// that are not negative.
    fn positions(&mut self, e: &mut Envelope) {
        let which = self.below(10);
        let mut position = self.below(100);
        for p in &mut e.rust.points {
            match which {
                0 | 1 => {}
                2..=4 => p.time = p.time.abs() + 0.0,
                // differences that are not exact in f32, or pass 2^63
                5 => {
                    let most = self.one_of(&[26, 40, 61, 63]);
                    position = position.saturating_add(bits(self, most) + 1);
                    p.sample_position = Some(position);
                }
                // close ones, and some that are the same
                6 => {
                    position += self.one_of(&[0, 1, 1, 1, 1, 2, 3]);
                    p.sample_position = Some(position);
                }
                // about the key that the point has anyway
                7 => {
                    if self.once_in(2) {
                        p.sample_position = Some(key(p).saturating_add(self.below(3)));
                    }
                }
                _ => {
                    position += 1 + self.below(5000);
                    if which == 8 || self.once_in(2) {
                        p.sample_position = Some(if self.once_in(60) { self.word() } else { position });
                    }
                }
            }
        }
        sort(e);
    }

    // ---- limits

    fn limits(&mut self, e: &mut Envelope) {
        let value = |r: &mut Random| match e.rust.points[..] {
            [] => r.single(),
            _ => r.one_of(&e.rust.points).value,
        };
        let (min, max) = match self.below(12) {
            0..=5 => (None, None),
            6 | 7 => (self.optional(), self.optional()),
            8 => (Some(self.one_of(&[0.0, -0.0])), Some(self.one_of(&[0.0, -0.0]))),
            9 => (Some(self.one_of(&[0.0, -0.0])), None),
            // they cross as often as not
            10 => (Some(value(self)), Some(value(self))),
            _ => (Some(1.0 + self.unit() as f32), Some(self.unit() as f32)),
        };
        let step = if self.once_in(3) {
            let v = value(self);
            Some(self.step(v))
        } else {
            None
        };
        (e.rust.min_value, e.rust.max_value, e.rust.step_size) = (min, max, step);
    }

    /// A step: above 0, at it, below it; also one that has v halfway between two of its steps.
    fn step(&mut self, v: f32) -> f32 {
        let half = (self.below(20) as f32 + 0.5) * if self.once_in(3) { 1.0 / 3.0 } else { 1.0 };
        let x = match self.below(9) {
            0 | 1 => self.one_of(&[0.1, 0.25, 0.625, 1.0, 3.0]),
            2 => self.one_of(&[0.0, -0.0, -1.0, -0.25]),
            3 => f32::from_bits(1 + self.below(16) as u32),
            4 => (v / half).abs(),
            5 => {
                let x = (v / half).abs();
                near(self, x, 1)
            }
            6 => self.single(),
            7 => self.unit() as f32 * f32::MAX,
            _ => self.unit() as f32,
        };
        if x.is_finite() {
            x
        } else {
            1.0
        }
    }

    /// Limits about the values, and a step that mostly passes one of them: what `hard` is for. Now and then
    /// the values between two points are NaN.
    fn stops(&mut self, e: &mut Envelope) {
        let (v, w) = if self.once_in(6) {
            self.widen(e);
            (self.single(), self.single())
        } else {
            (self.stop(e), self.stop(e))
        };
        let (low, high) = (v.min(w), v.max(w));
        let (min, max) = match self.below(12) {
            0..=3 => (Some(low), Some(high)),
            4 | 5 => (Some(low), None),
            6 | 7 => (None, Some(high)),
            8 => (Some(high), Some(low)),
            9 => (Some(v), Some(v)),
            _ => {
                let zeros = [0.0, -0.0].map(Some);
                let (zero, other) = (self.one_of(&zeros), self.one_of(&zeros));
                self.one_of(&[(zero, Some(high.abs())), (Some(-low.abs()), zero), (zero, other)])
            }
        };
        (e.rust.min_value, e.rust.max_value) = (min, max);
        e.rust.step_size = self.passing(e);
    }

    /// Values so far apart that their differences are infinite; times 0, as Stepped curves have it up to the
    /// next point, that is a NaN.
    fn widen(&mut self, e: &mut Envelope) {
        let mut side = sign(self) as f32;
        for p in &mut e.rust.points {
            side = -side;
            p.value = side * f32::MAX * (1.0 - self.unit() as f32 / 4.0);
            p.curve = if self.once_in(4) {
                self.curve()
            } else {
                CurveType::Stepped
            };
        }
    }

    /// The edit that an envelope lacks for a step that passes a limit and is held: a limit, then a step, then
    /// `hard`, which is also turned off again.
    pub fn stop_edit(&mut self, e: &Envelope) -> Edit {
        let stop = Arg::O(Some(self.stop(e)));
        match (self.passing(e), e.rust.step_size) {
            (None, _) => (self.one_of(&["set_min", "set_max"]), vec![stop]),
            (step, None) => ("set_step", vec![Arg::O(step)]),
            _ => ("set_hard", vec![Arg::B(!e.hard || self.once_in(2))]),
        }
    }

    /// A limit: a value of a point, one beside it or near it, one between two, or any other.
    fn stop(&mut self, e: &Envelope) -> f32 {
        let n = e.rust.points.len() as u64;
        if n == 0 {
            return self.single();
        }
        let (p, q) = (self.one_of(&e.rust.points), self.one_of(&e.rust.points));
        let x = match self.below(6) {
            0 => p.value,
            1 => near(self, p.value, 2),
            2 => p.value + (self.unit() as f32 - 0.5),
            3 | 4 => {
                let u = self.unit() as f32;
                p.value * (1.0 - u) + q.value * u
            }
            _ => self.single(),
        };
        if x.is_finite() {
            x
        } else {
            p.value
        }
    }

    /// A step, above 0, that doesn't divide one of the limits, if there is any, and mostly passes it: the
    /// limit lies halfway between two of its steps or beside that, past the half, short of it, below a step.
    /// Or one so small that a quotient overflows, a large one, a plain one.
    fn passing(&mut self, e: &Envelope) -> Option<f32> {
        // a step passes a limit away from 0 or towards it
        let lowest = e.rust.min_value.map(|m| (m, m < 0.0));
        let highest = e.rust.max_value.map(|m| (m, m > 0.0));
        let limits: Vec<(f32, bool)> = lowest.into_iter().chain(highest).collect();
        if limits.is_empty() {
            return None;
        }
        let (limit, away) = self.one_of(&limits);
        let away = away != self.once_in(5);
        let whole = self.one_of(&[0, 0, 0, 0, 1, 1, 2, 3, 7, 40]) as f32;
        let part = match self.below(6) {
            0 => 0.5,
            _ if away => 0.5 + self.unit() as f32 / 2.0,
            _ => self.unit() as f32 / 2.0,
        };
        let x = match self.below(12) {
            0 => f32::from_bits(1 + self.below(16) as u32),
            1 => self.unit() as f32 * f32::MAX,
            2 | 3 => self.one_of(&[0.1, 0.25, 0.625, 1.0, 3.0]),
            4 => near(self, limit / (whole + part), 1).abs(),
            _ => (limit / (whole + part)).abs(),
        };
        Some(if x.is_finite() && x > 0.0 { x } else { 0.625 })
    }

    // ---- envelopes that are not valid

    /// An envelope that is not valid: a number that is not finite, times that fall or are the same,
    /// or more than 256 points.
    pub fn spoiled(&mut self, mut e: Envelope) -> Envelope {
        let number = self.one_of(&NOT_FINITE);
        let n = e.rust.points.len() as u64;
        let i = if n == 0 { 0 } else { self.below(n) as usize };
        match self.below(11) {
            0 => e.rust.min_value = Some(number as f32),
            1 => e.rust.max_value = Some(number as f32),
            2 if self.once_in(4) => {
                let (most, curve) = (257 + self.one_of(&[0, 0, 0, 1, 40]), self.curve());
                e.rust.points = (0..most)
                    .map(|k| AutomationPoint::with_curve(k as f64, 1.0, curve))
                    .collect();
            }
            3 if n > 0 => e.rust.points[i].time = number,
            4 if n > 0 => e.rust.points[i].value = number as f32,
            5 if n > 0 => e.rust.points[i].curve = CurveType::Bezier(number as f32, self.single()),
            6 if n > 0 => e.rust.points[i].curve = CurveType::Bezier(self.single(), number as f32),
            7 if i > 0 => e.rust.points.swap(i - 1, i),
            8 if i > 0 => e.rust.points[i].time = e.rust.points[i - 1].time,
            9 if i > 0 => (e.rust.points[i - 1].time, e.rust.points[i].time) = (0.0, -0.0),
            _ => e.rust.step_size = Some(number as f32),
        }
        e
    }

    // ---- a second envelope, and points

    /// A second envelope: for an equality often the first with one thing changed, else sometimes
    /// with times of the first.
    pub fn second(&mut self, op: &str, first: &Envelope) -> Envelope {
        if op.starts_with("eq") && !self.once_in(4) {
            return self.altered(first);
        }
        let mut e = self.envelope();
        if self.once_in(3) && !first.rust.points.is_empty() {
            for p in &mut e.rust.points {
                if self.once_in(2) {
                    p.time = self.one_of(&first.rust.points).time;
                }
            }
            sort(&mut e);
        }
        e
    }

    /// The envelope with at most one thing changed, often by very little.
    fn altered(&mut self, first: &Envelope) -> Envelope {
        let mut e = first.clone();
        let n = e.rust.points.len() as u64;
        let i = if n == 0 { 0 } else { self.below(n) as usize };
        let other = self.single();
        let limit = |x: Option<f32>| x.map_or(Some(other), |v| if v == 0.0 { Some(-v) } else { None });
        match self.below(17) {
            0 => e.rust.target = e.rust.target.wrapping_add(1),
            1 => e.rust.enabled = !e.rust.enabled,
            2 => e.rust.min_value = limit(e.rust.min_value),
            3 => e.rust.max_value = limit(e.rust.max_value),
            4 => e.rust.step_size = limit(e.rust.step_size),
            5 => e.hard = !e.hard,
            6 => drop(e.rust.points.pop()),
            7..=15 if n > 0 => {
                let p = self.like(&first.rust.points[i]);
                match self.below(4) {
                    0 => e.rust.points[i].time = p.time,
                    1 => e.rust.points[i].value = p.value,
                    2 => e.rust.points[i].curve = p.curve,
                    _ => e.rust.points[i].sample_position = Some(4),
                }
                sort(&mut e);
            }
            _ => {}
        }
        e
    }

    /// A point much like another: the differences lie around those that the equalities allow.
    fn like(&mut self, q: &AutomationPoint) -> AutomationPoint {
        let mut p = q.clone();
        let apart = self.one_of(&[0.0, 1e-16, f64::EPSILON, 3e-16]);
        let time = near_double(self, apart, 1) * sign(self);
        p.time = q.time + time;
        let apart = self.one_of(&[0.0, 1e-7, f32::EPSILON, 2e-7]);
        let value = near(self, apart, 1) * sign(self) as f32;
        p.value = q.value + value;
        if self.once_in(2) {
            p.curve = self.curve();
        } else if let Some((a, b)) = controls(&q.curve) {
            let other = self.single();
            p.curve = self.one_of(&[
                q.curve,
                CurveType::Bezier(-a, b),
                CurveType::Bezier(a, other),
                CurveType::Bezier(other, b),
            ]);
        }
        if !p.time.is_finite() || !p.value.is_finite() {
            return q.clone();
        }
        p
    }

    fn any_point(&mut self) -> AutomationPoint {
        let time = if self.once_in(2) {
            self.unit() - 0.5
        } else {
            self.double()
        };
        let sample_position = if self.once_in(3) { Some(self.word()) } else { None };
        let value = if self.once_in(2) {
            self.unit() as f32 - 0.5
        } else {
            self.single()
        };
        let mut curve = self.curve();
        if self.once_in(4) {
            curve = CurveType::Bezier(self.one_of(&[0.0, -0.0, 1.0]), self.single());
        }
        AutomationPoint {
            time,
            sample_position,
            value,
            curve,
        }
    }

    /// A point: `near` gives its time, `before` is the one that it is compared with.
    pub fn point(
        &mut self,
        near: Option<&AutomationPoint>,
        before: Option<&AutomationPoint>,
    ) -> AutomationPoint {
        let mut p = match before {
            Some(q) if !self.once_in(4) => self.like(q),
            _ => self.any_point(),
        };
        if let Some(n) = near {
            p.time = n.time;
        }
        if self.once_in(24) {
            let number = self.one_of(&NOT_FINITE);
            match self.below(4) {
                0 => p.time = number,
                1 => p.value = number as f32,
                2 => p.curve = CurveType::Bezier(number as f32, 1.0),
                _ => p.curve = CurveType::Bezier(1.0, number as f32),
            }
        }
        p
    }

    // ---- times and samples of lookups

    /// Two neighbouring points.
    fn neighbours(&mut self, e: &Envelope) -> Option<[AutomationPoint; 2]> {
        let pairs = (e.rust.points.len() as u64).checked_sub(1).filter(|n| *n > 0)?;
        let i = self.below(pairs) as usize;
        Some([e.rust.points[i].clone(), e.rust.points[i + 1].clone()])
    }

    /// A time of a lookup, which is free: mostly at a point, beside one or between two.
    pub fn lookup_time(&mut self, e: &Envelope) -> f64 {
        if self.once_in(if e.rust.points.len() == 1 { 4 } else { 20 }) {
            return self.one_of(&NOT_FINITE);
        }
        let Some([p, q]) = self.neighbours(e) else {
            return self.double();
        };
        match self.below(10) {
            0 => p.time,
            1 => q.time,
            2 => near_double(self, p.time, 2),
            3 => near_double(self, q.time, 2),
            4 => p.time / 2.0 + q.time / 2.0,
            5..=7 => {
                let u = self.unit();
                p.time * (1.0 - u) + q.time * u
            }
            8 => -p.time,
            _ => self.double(),
        }
    }

    /// A sample of a lookup: mostly at a key, beside one or between two.
    pub fn lookup_sample(&mut self, e: &Envelope) -> u64 {
        let Some([p, q]) = self.neighbours(e) else {
            return self.word();
        };
        let (a, b) = (key(&p), key(&q));
        match self.below(10) {
            0 | 1 => a.saturating_add(self.below(3)).saturating_sub(1),
            2 | 3 => b.saturating_add(self.below(3)).saturating_sub(1),
            4..=7 if a < b => a + self.below(b - a),
            8 if key(&e.rust.points[0]) > 0 => self.below(key(&e.rust.points[0])),
            _ => self.word(),
        }
    }

    /// The last sample of a range: mostly not before the first, and now and then where the place
    /// after it just passes 2^64 - 1 or just doesn't.
    pub fn last_sample(&mut self, e: &Envelope, from: u64) -> u64 {
        let x = self.lookup_sample(e);
        match self.below(12) {
            0 => x,
            1 => u64::MAX - self.below(3),
            2 => {
                let about = u64::MAX - (u64::MAX - from) / 101;
                about.saturating_add(self.below(200)).saturating_sub(100)
            }
            3..=6 => from.saturating_add(self.below(700)),
            _ => x.max(from),
        }
    }

    // ---- rates and durations

    /// A rate of samples.
    pub fn rate(&mut self) -> f64 {
        match self.below(12) {
            0..=4 => self.one_of(&[1.0, 2.0, 4.0, 8.0, 0.1, 3.0, 7.0, 30.0, 44100.0, 48000.0]),
            5..=7 => self.unit() * 20.0,
            8 => -self.one_of(&[1.0, 8.0, 3.0, 48000.0]),
            9 => self.one_of(&[0.0, -0.0, 1e-300, f64::from_bits(1), 1e300, f64::MAX]),
            _ => self.double(),
        }
    }

    /// A duration: mostly of some tens of samples at the rate.
    pub fn duration(&mut self, rate: f64) -> f64 {
        let samples = self.below(60) as f64 + self.one_of(&[0.0, 0.0, 0.5, -1.0]);
        let x = match self.below(12) {
            0 => self.double(),
            1 => self.one_of(&[1e10, 4_294_967_296.0, 4_294_967_295.0]) / rate,
            2 => near_double(self, samples / rate, 1),
            _ => samples / rate,
        };
        if x.is_finite() {
            x
        } else {
            1.0
        }
    }

    /// The first sample of a run: often one whose time is about a point's.
    pub fn first_sample(&mut self, e: &Envelope, rate: f64, most: u64) -> u64 {
        let Some([p, q]) = self.neighbours(e) else {
            return self.one_of(&[0, 1, 2, 7, 1000, most - 3, most]);
        };
        let about = |t: f64, back: u64| ((t * rate) as u64).min(most).saturating_sub(back);
        match self.below(8) {
            0 => self.one_of(&[0, 1, 2, 7, 1000, most - 14, most - 3, most, most + 1]),
            1..=3 => about(p.time, self.below(4)),
            4 | 5 => about(q.time, self.below(12)),
            _ => self.below(40),
        }
    }
}

/// In order of time, without times that are bit for bit the same.
pub fn sort(e: &mut Envelope) {
    e.rust.points.sort_by(|a, b| a.time.total_cmp(&b.time));
    e.rust.points.dedup_by_key(|p| p.time.to_bits());
}
