//! The envelope by value: 256 places and a count, as document 01 has it, with 000's bodies on the
//! places and the refusals' tests. What the port is measured against where 000 has neither.
use source::curve::CurveType;

pub const PLACES: usize = 256;

#[derive(Clone, Copy)]
pub struct Point {
    pub time: f64,
    pub sample_position: Option<u64>,
    pub value: f32,
    pub curve: CurveType,
}

#[derive(Clone, Copy)]
pub struct Envelope {
    pub target: u32,
    pub count: usize,
    pub places: [Point; PLACES],
    pub enabled: bool,
    pub min_value: Option<f32>,
    pub max_value: Option<f32>,
    pub step_size: Option<f32>,
    pub hard: bool,
}

/// What an edit gives: refusal 0 and the changed envelope, or the refusal's number and the old one.
pub struct Edited {
    pub refusal: u32,
    pub envelope: Envelope,
}

pub const UNUSED: Point = Point {
    time: 0.0,
    sample_position: None,
    value: 0.0,
    curve: CurveType::Linear,
};

impl Point {
    pub fn is_finite(&self) -> bool {
        self.time.is_finite() && self.value.is_finite() && finite_curve(self.curve)
    }

    fn is_unused(&self) -> bool {
        self.time.to_bits() == 0
            && self.sample_position.is_none()
            && self.value.to_bits() == 0
            && matches!(self.curve, CurveType::Linear)
    }

    pub fn sample_key(&self) -> u64 {
        self.sample_position.unwrap_or((self.time * 48000.0) as u64)
    }
}

pub fn finite_curve(c: CurveType) -> bool {
    match c {
        CurveType::Bezier(a, b) => a.is_finite() && b.is_finite(),
        _ => true,
    }
}

pub fn finite_limit(l: Option<f32>) -> bool {
    l.is_none_or(f32::is_finite)
}

impl Envelope {
    pub fn new(target: u32) -> Self {
        Envelope {
            target,
            count: 0,
            places: [UNUSED; PLACES],
            enabled: true,
            min_value: None,
            max_value: None,
            step_size: None,
            hard: false,
        }
    }

    #[inline]
    pub fn points(&self) -> &[Point] {
        &self.places[..self.count]
    }

    #[inline]
    pub fn points_mut(&mut self) -> &mut [Point] {
        &mut self.places[..self.count]
    }

    pub fn all_finite(&self) -> bool {
        self.points().iter().all(Point::is_finite)
    }

    pub fn times_rise(&self) -> bool {
        self.points()
            .windows(2)
            .all(|w| w[0].time.total_cmp(&w[1].time).is_lt())
    }

    /// Refusal 1.
    pub fn is_valid(&self) -> bool {
        self.count <= PLACES
            && finite_limit(self.min_value)
            && finite_limit(self.max_value)
            && finite_limit(self.step_size)
            && self.all_finite()
            && self.times_rise()
            && self.places[self.count..].iter().all(Point::is_unused)
    }

    /// Refusal 7.
    pub fn keys_rise(&self) -> bool {
        !self.enabled
            || self
                .points()
                .windows(2)
                .all(|w| w[0].sample_key() < w[1].sample_key())
    }

    // ---- 000's lookups, with 02's `hard`

    #[inline(always)]
    fn bounded(&self, mut value: f32) -> f32 {
        if let Some(min) = self.min_value {
            value = value.max(min);
        }
        if let Some(max) = self.max_value {
            value = value.min(max);
        }
        value
    }

    fn apply_constraints(&self, value: f32) -> f32 {
        let mut value = self.bounded(value);
        if let Some(step) = self.step_size {
            if step > 0.0 {
                value = libm::roundf(value / step) * step;
            }
        }
        if self.hard {
            value = self.bounded(value);
        }
        value
    }

    #[inline]
    pub fn get_value_at(&self, time: f64) -> Option<f32> {
        let points = self.points();
        if !self.enabled || points.is_empty() {
            return None;
        }
        if points.len() == 1 || time <= points[0].time {
            return Some(self.apply_constraints(points[0].value));
        }
        let last = &points[points.len() - 1];
        if time >= last.time {
            return Some(self.apply_constraints(last.value));
        }
        let (prev, next) = match points.binary_search_by(|p| p.time.total_cmp(&time)) {
            Ok(i) => (&points[i], &points[i]),
            Err(i) if i == 0 || i >= points.len() => return None,
            Err(i) => (&points[i - 1], &points[i]),
        };
        let span = next.time - prev.time;
        let t = if span > 0.0 {
            ((time - prev.time) / span) as f32
        } else {
            0.0
        };
        Some(self.apply_constraints(prev.curve.interpolate(prev.value, next.value, t)))
    }

    #[inline]
    pub fn get_value_at_sample(&self, sample: u64) -> Option<f32> {
        let points = self.points();
        if !self.enabled || points.is_empty() {
            return None;
        }
        if points.len() == 1 || sample <= points[0].sample_position.unwrap_or(0) {
            return Some(self.apply_constraints(points[0].value));
        }
        let last = &points[points.len() - 1];
        if sample >= last.sample_key() {
            return Some(self.apply_constraints(last.value));
        }
        let (prev, next) = match points.binary_search_by_key(&sample, Point::sample_key) {
            Ok(i) => (&points[i], &points[i]),
            Err(i) if i == 0 || i >= points.len() => return None,
            Err(i) => (&points[i - 1], &points[i]),
        };
        let (before, after) = (prev.sample_key(), next.sample_key());
        let span = after - before;
        let t = if span > 0 {
            (sample - before) as f32 / span as f32
        } else {
            0.0
        };
        Some(self.apply_constraints(prev.curve.interpolate(prev.value, next.value, t)))
    }
}
