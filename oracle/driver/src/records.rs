//! The Rust's records, the driver's envelope, and the numbers of the curves.
pub use source::curve::CurveType;
pub use source::envelope::{AutomationEnvelope, AutomationPoint};

pub type RustEnvelope = AutomationEnvelope<u32>;

/// An envelope: the Rust's, and beside it the setting `hard` of request F-1, for which that has no room.
/// What the Rust answers is asked of `rust` by name, so that no answer leaves `hard` out unseen.
#[derive(Clone, Debug)]
pub struct Envelope {
    pub rust: RustEnvelope,
    pub hard: bool,
}

impl Envelope {
    /// As the Rust's, with `hard` off.
    pub fn new(target: u32) -> Self {
        Envelope::soft(RustEnvelope::new(target))
    }

    /// One that the Rust made, with `hard` off.
    pub fn soft(rust: RustEnvelope) -> Self {
        Envelope { rust, hard: false }
    }
}

/// An envelope that has these points, and nothing else set.
pub fn of_points(points: &[AutomationPoint]) -> Envelope {
    let mut e = Envelope::new(0);
    e.rust.points = points.to_vec();
    e
}

/// What a place past the count holds.
pub fn empty_place() -> AutomationPoint {
    AutomationPoint::new(0.0, 0.0)
}

/// The curve of a code, in 001's order from 0. `c1` and `c2` are the controls of a Bezier curve.
pub fn curve_of(code: u64, c1: f32, c2: f32) -> Option<CurveType> {
    use CurveType::*;
    Some(match code {
        0 => Linear,
        1 => Exponential,
        2 => Logarithmic,
        3 => SCurve,
        4 => Stepped,
        5 => Bezier(c1, c2),
        6 => Elastic,
        7 => Bounce,
        8 => Back,
        9 => Circular,
        10 => QuadIn,
        11 => QuadOut,
        12 => QuadInOut,
        13 => CubicIn,
        14 => CubicOut,
        15 => CubicInOut,
        16 => QuartIn,
        17 => QuartOut,
        18 => QuartInOut,
        19 => QuintIn,
        20 => QuintOut,
        21 => QuintInOut,
        _ => return None,
    })
}

pub fn controls(c: &CurveType) -> Option<(f32, f32)> {
    match c {
        CurveType::Bezier(a, b) => Some((*a, *b)),
        _ => None,
    }
}

/// The code of a curve: the one whose curve has the same name.
pub fn code_of(c: &CurveType) -> u64 {
    let same = |k: &u64| curve_of(*k, 0.0, 0.0).unwrap().name() == c.name();
    (0..22).find(same).unwrap()
}
