//! The text forms of calls and answers. DRIVER.md has them.
use crate::records::{code_of, controls, curve_of, AutomationPoint, CurveType, Envelope};
use std::collections::HashMap;
use std::hint::black_box;

#[derive(Clone, Debug)]
pub enum Arg {
    D(f64),
    F(f32),
    U(u64),
    N(u64),
    B(bool),
    O(Option<f32>),
    C(CurveType),
    P(AutomationPoint),
    L(Vec<AutomationPoint>),
    E(Envelope),
    S(Vec<u8>),
}

pub type Read<T> = Result<T, String>;

/// Envelopes that lines have named.
pub type Registers = HashMap<String, Envelope>;

/// The words of a line, read from the left.
pub struct Words<'a> {
    words: &'a [&'a str],
    registers: &'a Registers,
}

impl<'a> Words<'a> {
    pub fn new(words: &'a [&'a str], registers: &'a Registers) -> Self {
        Words { words, registers }
    }

    /// No word is left.
    pub fn end(&self) -> Read<()> {
        if self.words.is_empty() {
            Ok(())
        } else {
            Err("too many words".into())
        }
    }

    pub fn word(&mut self) -> Read<&'a str> {
        let (first, rest) = self.words.split_first().ok_or("too few words")?;
        self.words = rest;
        Ok(first)
    }

    fn none(&mut self) -> bool {
        let none = self.words.first() == Some(&"-");
        if none {
            self.words = &self.words[1..];
        }
        none
    }

    fn hexadecimal(&mut self, digits: usize) -> Read<u64> {
        let s = self.word()?;
        let capital = |b: u8| b.is_ascii_digit() || (b'A'..=b'F').contains(&b);
        if s.len() != digits || !s.bytes().all(capital) {
            return Err(format!("not {digits} digits: {s}"));
        }
        u64::from_str_radix(s, 16).map_err(|e| e.to_string())
    }

    fn double(&mut self) -> Read<f64> {
        Ok(f64::from_bits(self.hexadecimal(16)?))
    }

    fn single(&mut self) -> Read<f32> {
        Ok(f32::from_bits(self.hexadecimal(8)? as u32))
    }

    fn optional(&mut self) -> Read<Option<f32>> {
        if self.none() {
            return Ok(None);
        }
        self.single().map(Some)
    }

    pub fn decimal(&mut self) -> Read<u64> {
        let s = self.word()?;
        s.parse().map_err(|_| format!("not decimal: {s}"))
    }

    fn curve(&mut self) -> Read<CurveType> {
        let code = self.decimal()?;
        if code == 5 {
            return Ok(CurveType::Bezier(self.single()?, self.single()?));
        }
        if !(self.none() && self.none()) {
            return Err("controls on a plain curve".into());
        }
        if code == 6 {
            return Err("Elastic is left out".into());
        }
        curve_of(code, 0.0, 0.0).ok_or("curve code".into())
    }

    fn point(&mut self) -> Read<AutomationPoint> {
        let time = self.double()?;
        let sample_position = if self.none() {
            None
        } else {
            Some(self.hexadecimal(16)?)
        };
        let value = self.single()?;
        let curve = self.curve()?;
        Ok(AutomationPoint {
            time,
            sample_position,
            value,
            curve,
        })
    }

    fn points(&mut self) -> Read<Vec<AutomationPoint>> {
        (0..self.decimal()?).map(|_| self.point()).collect()
    }

    pub fn envelope(&mut self) -> Read<Envelope> {
        let s = self.word()?;
        if let Some(n) = s.strip_prefix('@') {
            return self.registers.get(n).cloned().ok_or(format!("no register {n}"));
        }
        if s != "{" {
            return Err(format!("not an envelope: {s}"));
        }
        let mut e = Envelope::new(self.decimal()? as u32);
        e.rust.enabled = self.word()? == "1";
        e.rust.min_value = self.optional()?;
        e.rust.max_value = self.optional()?;
        e.rust.step_size = self.optional()?;
        e.hard = match self.word()? {
            "0" => false,
            "1" => true,
            other => return Err(format!("not 0 or 1: {other}")),
        };
        e.rust.points = self.points()?;
        if self.word()? != "}" {
            return Err("no }".into());
        }
        Ok(e)
    }

    /// Arguments of these kinds, and no word after them.
    pub fn arguments(&mut self, kinds: &str) -> Read<Vec<Arg>> {
        let a = kinds.chars().map(|k| self.argument(k)).collect::<Read<_>>()?;
        self.end()?;
        Ok(a)
    }

    pub fn argument(&mut self, kind: char) -> Read<Arg> {
        Ok(match kind {
            'D' | 'T' => Arg::D(self.double()?),
            'F' | 'G' => Arg::F(self.single()?),
            'U' => Arg::U(self.hexadecimal(16)?),
            'N' => Arg::N(self.decimal()?),
            'B' => Arg::B(self.word()? == "1"),
            'O' => Arg::O(self.optional()?),
            'C' => Arg::C(self.curve()?),
            'P' => Arg::P(self.point()?),
            'L' => Arg::L(self.points()?),
            _ => Arg::E(self.envelope()?),
        })
    }
}

/// Bits in capitals. Any NaN is written as the same one, so that lists do not depend on the machine;
/// the bits are hidden from the compiler first, which may otherwise leave a NaN's as they are.
pub fn single(x: f32) -> String {
    let b = black_box(x.to_bits());
    format!(
        "{:08X}",
        if b % (1 << 31) > 0x7F80_0000 {
            0x7FC0_0000
        } else {
            b
        }
    )
}

pub fn double(x: f64) -> String {
    let b = black_box(x.to_bits());
    word(if b % (1 << 63) > 0x7FF0_0000_0000_0000 {
        0x7FF8_0000_0000_0000
    } else {
        b
    })
}

pub fn word(x: u64) -> String {
    format!("{x:016X}")
}

/// A value with `~` after a zero whose sign the Rust leaves open.
pub fn marked(x: f32, open: bool) -> String {
    single(x) + if open && x == 0.0 { "~" } else { "" }
}

fn optional(x: Option<f32>) -> String {
    x.map_or("-".into(), single)
}

fn curve(c: &CurveType) -> String {
    let k = controls(c);
    format!(
        "{:02} {} {}",
        code_of(c),
        optional(k.map(|x| x.0)),
        optional(k.map(|x| x.1))
    )
}

fn point(p: &AutomationPoint, open: bool) -> String {
    let position = p.sample_position.map_or("-".into(), word);
    format!(
        "{} {} {} {}",
        double(p.time),
        position,
        marked(p.value, open),
        curve(&p.curve)
    )
}

fn settings(e: &Envelope) -> String {
    let limits = [e.rust.min_value, e.rust.max_value, e.rust.step_size]
        .map(optional)
        .join(" ");
    format!(
        "{} {} {limits} {}",
        e.rust.target, e.rust.enabled as u8, e.hard as u8
    )
}

/// Points and their number, with the values marked that `open` says.
fn points(list: &[AutomationPoint], open: &[bool]) -> String {
    let mut s = list.len().to_string();
    for (i, p) in list.iter().enumerate() {
        s += " ";
        s += &point(p, open.get(i).copied().unwrap_or(false));
    }
    s
}

/// An envelope, with the values marked that `open` says.
pub fn envelope(e: &Envelope, open: &[bool]) -> String {
    format!("{{ {} {} }}", settings(e), points(&e.rust.points, open))
}

/// The envelope's sheet, as document 01 has it.
pub fn sheet(e: &Envelope) -> String {
    let mut s = format!(
        "target enabled min max step hard\n{}\ntime position value curve cp1 cp2\n",
        settings(e)
    );
    for p in &e.rust.points {
        s += &point(p, false);
        s += "\n";
    }
    s
}

/// Bytes in a line: 0A as `|`, letters, digits, spaces and `-` as they are, any other as `\` and two
/// digits.
pub fn shown(bytes: &[u8]) -> String {
    let show = |b: &u8| match b {
        b'\n' => "|".to_string(),
        b' ' | b'-' => char::from(*b).to_string(),
        b if b.is_ascii_alphanumeric() => char::from(*b).to_string(),
        b => format!("\\{b:02X}"),
    };
    bytes.iter().map(show).collect()
}

/// The bytes of such a text.
pub fn unshown(text: &str) -> Read<Vec<u8>> {
    let mut all = vec![];
    let mut left = text.bytes();
    while let Some(b) = left.next() {
        all.push(match b {
            b'|' => b'\n',
            b'\\' => {
                let digits: Vec<u8> = left.by_ref().take(2).collect();
                let digits = String::from_utf8(digits).map_err(|e| e.to_string())?;
                u8::from_str_radix(&digits, 16).map_err(|e| e.to_string())?
            }
            _ => b,
        });
    }
    Ok(all)
}

fn argument(a: &Arg) -> String {
    match a {
        Arg::D(x) => double(*x),
        Arg::F(x) => single(*x),
        Arg::U(x) => word(*x),
        Arg::N(x) => x.to_string(),
        Arg::B(b) => (*b as u8).to_string(),
        Arg::O(x) => optional(*x),
        Arg::C(c) => curve(c),
        Arg::P(p) => point(p, false),
        Arg::L(l) => points(l, &[]),
        Arg::E(e) => envelope(e, &[]),
        Arg::S(b) => shown(b),
    }
}

/// Arguments, each with a space before it.
pub fn arguments(a: &[Arg]) -> String {
    a.iter().fold(String::new(), |s, x| s + " " + &argument(x))
}
