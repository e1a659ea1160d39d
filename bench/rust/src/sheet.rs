//! The sheet, read and written as document 01 has it, with its refusals: plain code on bytes that
//! allocates nothing.
use crate::fixed::{Envelope, Point, PLACES};
use crate::session::{code, curve};
use source::curve::CurveType;

/// A refusal's number, and the line's.
pub type Refused = (u32, u64);

const SETTINGS: &[u8] = b"target enabled min max step hard";
const POINTS: &[u8] = b"time position value curve cp1 cp2";

// ---- reading: a line's form gives 9, its numbers 3 or 2, its time 6

/// The bytes that are left, and the number of the line before them.
struct Lines<'a> {
    left: &'a [u8],
    number: u64,
}

impl<'a> Lines<'a> {
    /// The next line, without its 0A.
    fn line(&mut self) -> Result<&'a [u8], u32> {
        self.number += 1;
        let end = self.left.iter().position(|&b| b == b'\n').ok_or(9u32)?;
        let line = &self.left[..end];
        self.left = &self.left[end + 1..];
        Ok(line)
    }

    fn names(&mut self, names: &[u8]) -> Result<(), u32> {
        if self.line()? == names {
            Ok(())
        } else {
            Err(9)
        }
    }

    fn fields<const N: usize>(&mut self) -> Result<[&'a [u8]; N], u32> {
        let mut parts = self.line()?.split(|&b| b == b' ');
        let mut fields = [&[][..]; N];
        for field in &mut fields {
            *field = parts.next().ok_or(9u32)?;
        }
        match parts.next() {
            None => Ok(fields),
            Some(_) => Err(9),
        }
    }
}

/// So many digits of a base.
fn digits(field: &[u8], base: u64, width: usize) -> Result<u64, u32> {
    if field.len() != width {
        return Err(9);
    }
    let mut v = 0;
    for &b in field {
        let d = match b {
            b'0'..=b'9' => b - b'0',
            b'A'..=b'F' => b - b'A' + 10,
            _ => return Err(9),
        };
        if u64::from(d) >= base {
            return Err(9);
        }
        v = v * base + u64::from(d);
    }
    Ok(v)
}

fn bits32(field: &[u8]) -> Result<u32, u32> {
    digits(field, 16, 8).map(|v| v as u32)
}

fn optional<T>(field: &[u8], read: impl Fn(&[u8]) -> Result<T, u32>) -> Result<Option<T>, u32> {
    if field == b"-" {
        return Ok(None);
    }
    read(field).map(Some)
}

fn target(field: &[u8]) -> Result<u32, u32> {
    if field.is_empty() || (field[0] == b'0' && field.len() > 1) {
        return Err(9);
    }
    let mut v: u32 = 0;
    for &b in field {
        if !b.is_ascii_digit() {
            return Err(9);
        }
        v = v
            .checked_mul(10)
            .and_then(|v| v.checked_add(u32::from(b - b'0')))
            .ok_or(9u32)?;
    }
    Ok(v)
}

fn finite(bits: u32) -> Result<f32, u32> {
    let x = f32::from_bits(bits);
    if x.is_finite() {
        Ok(x)
    } else {
        Err(3)
    }
}

fn settings(l: &mut Lines, e: &mut Envelope) -> Result<(), u32> {
    let [target_field, enabled, min, max, step, hard] = l.fields()?;
    e.target = target(target_field)?;
    e.enabled = digits(enabled, 2, 1)? == 1;
    let (min, max, step) = (
        optional(min, bits32)?,
        optional(max, bits32)?,
        optional(step, bits32)?,
    );
    e.hard = digits(hard, 2, 1)? == 1;
    e.min_value = min.map(finite).transpose()?;
    e.max_value = max.map(finite).transpose()?;
    e.step_size = step.map(finite).transpose()?;
    Ok(())
}

fn point(l: &mut Lines) -> Result<Point, u32> {
    let [time, position, value, code, cp1, cp2] = l.fields()?;
    let time = digits(time, 16, 16)?;
    let sample_position = optional(position, |f| digits(f, 16, 16))?;
    let value = bits32(value)?;
    let code = digits(code, 10, 2)?;
    let (cp1, cp2) = match code {
        5 => (bits32(cp1)?, bits32(cp2)?),
        _ if cp1 == b"-" && cp2 == b"-" => (0, 0),
        _ => return Err(9),
    };
    let time = f64::from_bits(time);
    if !time.is_finite() {
        return Err(3);
    }
    let value = finite(value)?;
    if code == 6 || code > 21 {
        return Err(2);
    }
    Ok(Point {
        time,
        sample_position,
        value,
        curve: curve(code, finite(cp1)?, finite(cp2)?),
    })
}

fn sheet(l: &mut Lines, e: &mut Envelope) -> Result<(), u32> {
    l.names(SETTINGS)?;
    settings(l, e)?;
    l.names(POINTS)?;
    while !l.left.is_empty() {
        if e.count == PLACES {
            l.number += 1;
            return Err(5);
        }
        let p = point(l)?;
        if e.points()
            .last()
            .is_some_and(|last| last.time.total_cmp(&p.time).is_ge())
        {
            return Err(6);
        }
        e.places[e.count] = p;
        e.count += 1;
    }
    Ok(())
}

#[inline(never)]
pub fn read_sheet(s: &[u8]) -> Result<Envelope, Refused> {
    let mut l = Lines { left: s, number: 0 };
    let mut e = Envelope::new(0);
    match sheet(&mut l, &mut e) {
        Ok(()) => Ok(e),
        Err(refusal) => Err((refusal, l.number)),
    }
}

// ---- writing: 1, then 8, then the lines

/// The lent bytes, and how many are filled.
struct Text<'a> {
    out: &'a mut [u8],
    at: usize,
}

impl Text<'_> {
    fn bytes(&mut self, w: &[u8]) {
        self.out[self.at..self.at + w.len()].copy_from_slice(w);
        self.at += w.len();
    }

    /// A number in so many digits, and a byte after it.
    fn number(&mut self, mut v: u64, base: u64, width: usize, end: u8) {
        let field = &mut self.out[self.at..self.at + width + 1];
        for b in field[..width].iter_mut().rev() {
            *b = b"0123456789ABCDEF"[(v % base) as usize];
            v /= base;
        }
        field[width] = end;
        self.at += width + 1;
    }

    fn optional(&mut self, v: Option<u64>, width: usize, end: u8) {
        match v {
            Some(v) => self.number(v, 16, width, end),
            None => self.bytes(&[b'-', end]),
        }
    }

    fn limit(&mut self, l: Option<f32>, end: u8) {
        self.optional(l.map(|x| u64::from(x.to_bits())), 8, end);
    }

    fn single(&mut self, x: f32, end: u8) {
        self.number(u64::from(x.to_bits()), 16, 8, end);
    }
}

fn decimal_places(v: u32) -> usize {
    v.checked_ilog10().map_or(1, |n| n as usize + 1)
}

fn point_length(p: &Point) -> usize {
    let position = if p.sample_position.is_some() { 17 } else { 2 };
    let controls = if matches!(p.curve, CurveType::Bezier(..)) {
        18
    } else {
        4
    };
    29 + position + controls
}

fn sheet_length(e: &Envelope) -> usize {
    let limit = |l: Option<f32>| if l.is_some() { 9 } else { 2 };
    let settings =
        decimal_places(e.target) + 3 + limit(e.min_value) + limit(e.max_value) + limit(e.step_size) + 2;
    let points: usize = e.points().iter().map(point_length).sum();
    SETTINGS.len() + 1 + settings + POINTS.len() + 1 + points
}

#[inline(never)]
pub fn write_sheet(e: Envelope, out: &mut [u8]) -> Result<usize, u32> {
    if !e.is_valid() {
        return Err(1);
    }
    if out.len() < sheet_length(&e) {
        return Err(8);
    }
    let mut t = Text { out, at: 0 };
    t.bytes(SETTINGS);
    t.bytes(b"\n");
    t.number(u64::from(e.target), 10, decimal_places(e.target), b' ');
    t.number(u64::from(e.enabled), 2, 1, b' ');
    t.limit(e.min_value, b' ');
    t.limit(e.max_value, b' ');
    t.limit(e.step_size, b' ');
    t.number(u64::from(e.hard), 2, 1, b'\n');
    t.bytes(POINTS);
    t.bytes(b"\n");
    for p in e.points() {
        t.number(p.time.to_bits(), 16, 16, b' ');
        t.optional(p.sample_position, 16, b' ');
        t.single(p.value, b' ');
        t.number(code(p.curve), 10, 2, b' ');
        match p.curve {
            CurveType::Bezier(a, b) => {
                t.single(a, b' ');
                t.single(b, b'\n');
            }
            _ => t.bytes(b"- -\n"),
        }
    }
    Ok(t.at)
}
