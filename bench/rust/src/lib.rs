//! The Rust's counterparts of crates/bench_exports, under the same signatures. A crate of their own,
//! and `inline(never)`, so that the measuring loop calls them just as it calls the others.
use source::curve::CurveType;
use std::hint::black_box;

mod edits;
mod fixed;
pub mod records;
mod session;
mod sheet;
pub mod sheets;

#[no_mangle]
#[inline(never)]
pub extern "C" fn rust_echo(x: f64) -> f64 {
    x
}

#[no_mangle]
#[inline(never)]
pub extern "C" fn rust_narrow(x: f64) -> f32 {
    x as f32
}

#[no_mangle]
#[inline(never)]
pub extern "C" fn rust_u64_to_f32(n: u64) -> f32 {
    n as f32
}

#[no_mangle]
#[inline(never)]
pub extern "C" fn rust_f64_to_u64(x: f64) -> u64 {
    x as u64
}

#[no_mangle]
#[inline(never)]
pub extern "C" fn rust_round(x: f64) -> f64 {
    libm::round(x)
}

#[no_mangle]
#[inline(never)]
pub extern "C" fn rust_roundf(x: f32) -> f32 {
    libm::roundf(x)
}

#[no_mangle]
#[inline(never)]
pub extern "C" fn rust_sqrtf(x: f32) -> f32 {
    libm::sqrtf(x)
}

// The curve passes through `black_box`: a point's curve is known only when the move is played, and
// the other side doesn't fold it either.
#[no_mangle]
#[inline(never)]
pub extern "C" fn rust_linear(t: f32) -> f32 {
    black_box(CurveType::Linear).interpolate(0.25, 0.75, t)
}

#[no_mangle]
#[inline(never)]
pub extern "C" fn rust_cubic_in_out(t: f32) -> f32 {
    black_box(CurveType::CubicInOut).interpolate(0.25, 0.75, t)
}

#[no_mangle]
#[inline(never)]
pub extern "C" fn rust_quint_in_out(t: f32) -> f32 {
    black_box(CurveType::QuintInOut).interpolate(0.25, 0.75, t)
}

#[no_mangle]
#[inline(never)]
pub extern "C" fn rust_bounce(t: f32) -> f32 {
    black_box(CurveType::Bounce).interpolate(0.25, 0.75, t)
}

#[no_mangle]
#[inline(never)]
pub extern "C" fn rust_back(t: f32) -> f32 {
    black_box(CurveType::Back).interpolate(0.25, 0.75, t)
}

#[no_mangle]
#[inline(never)]
pub extern "C" fn rust_logarithmic(t: f32) -> f32 {
    black_box(CurveType::Logarithmic).interpolate(0.25, 0.75, t)
}

#[no_mangle]
#[inline(never)]
pub extern "C" fn rust_circular(t: f32) -> f32 {
    black_box(CurveType::Circular).interpolate(0.25, 0.75, t)
}

#[no_mangle]
#[inline(never)]
pub extern "C" fn rust_bezier(t: f32) -> f32 {
    black_box(CurveType::Bezier(0.5, 1.0)).interpolate(0.25, 0.75, t)
}
