//! Sheets and the program's input by document 01's rule, written from the paper. The input is a sheet
//! and a block of rate and duration.
use crate::records::{curve_of, AutomationPoint, Envelope};

pub struct Play {
    pub envelope: Envelope,
    pub rate: f64,
    pub duration: f64,
}

/// A refusal's number and the line's.
pub type Refusal = (u32, usize);

/// The bytes that are left, and the number of the line before them.
struct Lines<'a> {
    left: &'a [u8],
    number: usize,
}

impl<'a> Lines<'a> {
    /// The next line, without its 0A.
    fn line(&mut self) -> Result<&'a [u8], u32> {
        self.number += 1;
        let end = self.left.iter().position(|b| *b == b'\n').ok_or(9u32)?;
        let line = &self.left[..end];
        self.left = &self.left[end + 1..];
        Ok(line)
    }

    fn names(&mut self, names: &str) -> Result<(), u32> {
        if self.line()? == names.as_bytes() {
            Ok(())
        } else {
            Err(9)
        }
    }

    fn fields<const N: usize>(&mut self) -> Result<[&'a [u8]; N], u32> {
        let fields: Vec<&[u8]> = self.line()?.split(|b| *b == b' ').collect();
        fields.try_into().map_err(|_| 9)
    }
}

/// So many capital hexadecimal digits.
fn bits(field: &[u8], width: usize) -> Result<u64, u32> {
    let digit = |b: &u8| b.is_ascii_digit() || (b'A'..=b'F').contains(b);
    if field.len() != width || !field.iter().all(digit) {
        return Err(9);
    }
    let text = std::str::from_utf8(field).unwrap();
    Ok(u64::from_str_radix(text, 16).unwrap())
}

/// A number, or none.
fn optional(field: &[u8], width: usize) -> Result<Option<u64>, u32> {
    if field == b"-" {
        return Ok(None);
    }
    bits(field, width).map(Some)
}

fn target(field: &[u8]) -> Result<u32, u32> {
    if field.is_empty() || !field.iter().all(u8::is_ascii_digit) || (field[0] == b'0' && field.len() > 1) {
        return Err(9);
    }
    std::str::from_utf8(field).unwrap().parse().map_err(|_| 9)
}

fn switch(field: &[u8]) -> Result<bool, u32> {
    match field {
        b"0" => Ok(false),
        b"1" => Ok(true),
        _ => Err(9),
    }
}

fn double(bits: u64) -> Result<f64, u32> {
    Some(f64::from_bits(bits)).filter(|x| x.is_finite()).ok_or(3)
}

fn single(bits: u64) -> Result<f32, u32> {
    Some(f32::from_bits(bits as u32))
        .filter(|x| x.is_finite())
        .ok_or(3)
}

fn limit(bits: Option<u64>) -> Result<Option<f32>, u32> {
    bits.map(single).transpose()
}

fn settings(l: &mut Lines) -> Result<Envelope, u32> {
    let [target_field, enabled, min, max, step, hard] = l.fields()?;
    let mut e = Envelope::new(target(target_field)?);
    e.rust.enabled = switch(enabled)?;
    let limits = [optional(min, 8)?, optional(max, 8)?, optional(step, 8)?];
    e.hard = switch(hard)?;
    // the line has its form: what is left is 3
    e.rust.min_value = limit(limits[0])?;
    e.rust.max_value = limit(limits[1])?;
    e.rust.step_size = limit(limits[2])?;
    Ok(e)
}

fn point(l: &mut Lines, e: &Envelope) -> Result<AutomationPoint, u32> {
    let [time, position, value, code, cp1, cp2] = l.fields()?;
    let (time, position, value) = (bits(time, 16)?, optional(position, 16)?, bits(value, 8)?);
    if code.len() != 2 || !code.iter().all(u8::is_ascii_digit) {
        return Err(9);
    }
    let code = u64::from(code[0] - b'0') * 10 + u64::from(code[1] - b'0');
    let controls = match code {
        5 => [bits(cp1, 8)?, bits(cp2, 8)?],
        _ if cp1 == b"-" && cp2 == b"-" => [0, 0],
        _ => return Err(9),
    };
    let (time, value) = (double(time)?, single(value)?);
    if code == 6 || code > 21 {
        return Err(2);
    }
    let curve = curve_of(code, single(controls[0])?, single(controls[1])?).unwrap();
    if e.rust
        .points
        .last()
        .is_some_and(|p| p.time.total_cmp(&time).is_ge())
    {
        return Err(6);
    }
    Ok(AutomationPoint {
        time,
        sample_position: position,
        value,
        curve,
    })
}

/// A sheet. `end` says whether the points end before the bytes that are left.
fn sheet(l: &mut Lines, end: fn(&[u8]) -> bool) -> Result<Envelope, u32> {
    l.names("target enabled min max step hard")?;
    let mut e = settings(l)?;
    l.names("time position value curve cp1 cp2")?;
    while !end(l.left) {
        if e.rust.points.len() == 256 && !l.left.is_empty() {
            l.number += 1;
            return Err(5);
        }
        let p = point(l, &e)?;
        e.rust.points.push(p);
    }
    Ok(e)
}

/// In the program the points end at `rate duration`, whether or not its line ends.
fn play(l: &mut Lines) -> Result<Play, u32> {
    let ended = |left: &[u8]| left == b"rate duration" || left.starts_with(b"rate duration\n");
    let envelope = sheet(l, ended)?;
    l.names("rate duration")?;
    let [rate, duration] = l.fields()?;
    let (rate, duration) = (bits(rate, 16)?, bits(duration, 16)?);
    let (rate, duration) = (double(rate)?, double(duration)?);
    Ok(Play {
        envelope,
        rate,
        duration,
    })
}

/// All of the bytes, or the first refusal.
fn read<T>(input: &[u8], part: fn(&mut Lines) -> Result<T, u32>) -> Result<T, Refusal> {
    let mut l = Lines {
        left: input,
        number: 0,
    };
    match part(&mut l) {
        Ok(x) if l.left.is_empty() => Ok(x),
        Ok(_) => Err((9, l.number + 1)),
        Err(n) => Err((n, l.number)),
    }
}

/// What is to be played.
pub fn read_play(input: &[u8]) -> Result<Play, Refusal> {
    read(input, play)
}

/// A sheet alone ends with the bytes.
pub fn read_sheet(input: &[u8]) -> Result<Envelope, Refusal> {
    read(input, |l| sheet(l, <[u8]>::is_empty))
}
