//! The counterparts of the exports on sheets.
use crate::sheet::{read_sheet, write_sheet};
use std::hint::black_box;
use std::slice::{from_raw_parts, from_raw_parts_mut};

/// Reads the bytes `turns` times. A refusal's number and 16 times its line; else 16 times the count,
/// and the lists are filled.
/// # Safety
/// Each pointer leads to as many places as the number after it says.
#[no_mangle]
#[inline(never)]
pub unsafe extern "C" fn rust_read_sheet(
    text: *const u8,
    text_len: usize,
    turns: u32,
    out_times: *mut f64,
    out_times_len: usize,
    out_values: *mut f32,
    out_values_len: usize,
) -> u64 {
    let text = from_raw_parts(text, text_len);
    let mut last = read_sheet(text);
    for _ in 1..turns {
        last = read_sheet(black_box(text));
        black_box(&last);
    }
    let e = match last {
        Ok(e) => e,
        Err((refusal, line)) => return line * 16 + u64::from(refusal),
    };
    let times = from_raw_parts_mut(out_times, out_times_len);
    let values = from_raw_parts_mut(out_values, out_values_len);
    for ((p, time), value) in e.places.iter().zip(times).zip(values) {
        *time = p.time;
        *value = p.value;
    }
    e.count as u64 * 16
}

/// Writes the envelope of a sheet `turns` times. How many bytes it has.
/// # Safety
/// As above.
#[no_mangle]
#[inline(never)]
pub unsafe extern "C" fn rust_write_sheet(
    text: *const u8,
    text_len: usize,
    turns: u32,
    out: *mut u8,
    out_len: usize,
) -> u64 {
    let Ok(e) = read_sheet(from_raw_parts(text, text_len)) else {
        return 0;
    };
    let out = from_raw_parts_mut(out, out_len);
    (0..turns).fold(0, |_, _| {
        write_sheet(*black_box(&e), black_box(out)).map_or(0, |n| n as u64)
    })
}
