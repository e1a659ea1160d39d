//! Sheets: lines for each cause of a refusal, and random sheets with their edge cases.
use crate::envelopes::NOT_FINITE;
use crate::random::Random;
use crate::records::{AutomationPoint, Envelope};
use crate::text;

/// Lines in the place of the first names.
pub const NAMES: [&str; 10] = [
    "",
    "Target enabled min max step hard",
    "target enabled min max step hard ",
    "target enabled min max step hard step",
    "target enabled min max",
    "target enabled min max step",
    "target enabled min max step ",
    "target enabled min max step  hard",
    "target enabled min max step Hard",
    "target enabled min max hard step",
];
/// Lines in the place of the names of a point.
pub const POINT_NAMES: [&str; 3] = [
    "time position value curve cp1",
    "time  position value curve cp1 cp2",
    "time position value curve cp1 cp3",
];
/// Lines of settings.
pub const SETTINGS: [&str; 54] = [
    "00 1 - - - 0",
    "4294967295 1 - - - 0",
    "4294967296 1 - - - 0",
    "99999999999999999999 1 - - - 0",
    " 1 - - - 0",
    "0 2 - - - 0",
    "-1 1 - - - 0",
    "0 - - - - 0",
    "0 1 3f800000 - - 0",
    "0 1 3F8000000 - - 0",
    "0 1 3F800000 3F800000 3F80000 0",
    "0 1 C0000000 3F800000 3E800000 0",
    "0 1 7F800000 - - 0",
    "0 1 - FF800000 - 0",
    "0 1 - - 7FC00000 0",
    "0 1 - - 3F800000 0 -",
    "0 1 7F800000 - x 0",
    "0 2 7F800000 - - 0",
    "0 1 - - 0",
    "0 0 - - - 0",
    // hard on, and a step that passes a maximum or a minimum, with hard off and on
    "0 1 - - - 1",
    "0 0 - - - 1",
    "0 1 - 3F000000 3F200000 0",
    "0 1 - 3F000000 3F200000 1",
    "0 1 3E800000 - 3F800000 0",
    "0 1 3E800000 - 3F800000 1",
    "0 1 3F000000 3E800000 3F200000 0",
    "0 1 3F000000 3E800000 3F200000 1",
    "4294967295 0 3F800000 3F800000 3F800000 1",
    // without it, and with what is no 0 or 1
    "0 1 - - -",
    "0 1 - - - ",
    "0 1 - - - -",
    "0 1 - - - 2",
    "0 1 - - - 3",
    "0 1 - - - 9",
    "0 1 - - - 00",
    "0 1 - - - 01",
    "0 1 - - - 10",
    "0 1 - - - x",
    "0 1 - - -  1",
    "0 1 - - - 1 ",
    "0 1 - - - 1\r",
    "0 1 - - - 1 0",
    "0 1 - - - 00000000",
    "0 1 1 - - -",
    // its 9 comes before a limit's 3
    "0 1 7F800000 - -",
    "0 1 7F800000 - - 2",
    "0 1 - FF800000 - -",
    "0 1 - - 7FC00000 00",
    "0 1 7F800000 FF800000 7FC00000 x",
    "0 1 - - 7F800000 1 ",
    "0 1 7F800000 - - 1",
    "0 1 - FF800000 - 1",
    "0 1 - - 7FC00000 1",
];
/// Lines of a point.
pub const POINTS: [&str; 35] = [
    "7FF0000000000000 - 00000000 00 - -",
    "FFF8000000000000 - 00000000 06 - -",
    "4010000000000000 - FF800000 22 - -",
    "4010000000000000 - 3F800000 06 - -",
    "4010000000000000 - 3F800000 22 - -",
    "4010000000000000 - 3F800000 99 - -",
    "4010000000000000 - 3F800000 05 - -",
    "4010000000000000 - 3F800000 05 00000000 7F800000",
    "4010000000000000 - 3F800000 05 7FC00000 7F800000",
    "4010000000000000 - 3F800000 05 3F800000 3F800000",
    "4010000000000000 - 3F800000 06 3F800000 3F800000",
    "4010000000000000 - 3F800000 07 3F800000 -",
    "4010000000000000 - 3F800000 07 - 3F800000",
    "4010000000000000 - 3F800000 0 - -",
    "4010000000000000 - 3F800000 0A - -",
    "4010000000000000 - 3F800000 000 - -",
    "4010000000000000 - - 00 - -",
    "- - 3F800000 00 - -",
    "40100000000000000 - 3F800000 00 - -",
    "401000000000000 - 3F800000 00 - -",
    "4010000000000000 - 3F80000 00 - -",
    "4010000000000000 FFFFFFFFFFFFFFFF 3F800000 00 - -",
    "4010000000000000 0 3F800000 00 - -",
    "4010000000000000  3F800000 00 - -",
    "4010000000000000 - 3F800000 00 - - ",
    "0000000000000000 - 3F800000 00 - -",
    "8000000000000000 - 3F800000 00 - -",
    "C010000000000000 - 3F800000 00 - -",
    "0000000000000001 - 3F800000 00 - -",
    "7FF0000000000000 - 3F800000 00 - x",
    "0000000000000000 - 7F800000 00 - -",
    "0000000000000000 - 3F800000 06 - -",
    "0000000000000000 - 3F800000 00 - x",
    "0000000000000000 - 3F800000 05 3F800000 7F800000",
    "",
];
/// What may follow the last line of a sheet.
const REST: [&str; 7] = [
    "\n",
    "x",
    "x\n",
    " ",
    "rate duration\n",
    "rate duration\n3FF0000000000000 4008000000000000\n",
    "target enabled min max step hard\n",
];

/// A byte changed, taken out or put in, or a line taken out, put twice or moved.
pub fn spoiled(r: &mut Random, mut l: Vec<u8>) -> Vec<u8> {
    let at = r.below(l.len() as u64) as usize;
    match r.below(7) {
        0 => l[at] = r.below(256) as u8,
        1 => l[at] = r.one_of(b"0123456789ABCDEF -\n"),
        2 => drop(l.remove(at)),
        3 => l.insert(at, r.one_of(b"0123456789ABCDEFabcdef -\n\r")),
        4 => l.truncate(at),
        _ => {
            let mut lines: Vec<Vec<u8>> = l.split_inclusive(|b| *b == b'\n').map(<[u8]>::to_vec).collect();
            let (i, j) = (
                r.below(lines.len() as u64) as usize,
                r.below(lines.len() as u64) as usize,
            );
            match r.below(3) {
                0 => drop(lines.remove(i)),
                1 => lines.insert(j, lines[i].clone()),
                _ => lines.swap(i, j),
            }
            l = lines.concat();
        }
    }
    l
}

fn few(r: &mut Random) -> u64 {
    match r.below(12) {
        0 => 0,
        1..=4 => 1,
        _ => 2 + r.below(4),
    }
}

/// A sheet: as it is written, or cut, with a byte or a line changed, with a line for a cause of a
/// refusal or several of them, or with something after it; also of 255 to 257 points.
pub fn sheet(r: &mut Random) -> Vec<u8> {
    if r.once_in(60) {
        return full(r).into_bytes();
    }
    let e = r.envelope_of(few);
    let mut s = text::sheet(&e);
    match r.below(16) {
        0..=3 => {}
        4 if r.once_in(8) => s.clear(),
        4 | 5 => s.truncate(r.below(s.len() as u64) as usize),
        6 | 7 => return spoiled(r, s.into_bytes()),
        8 | 9 => s += r.one_of(&REST),
        10 => {
            let k = 1 + r.below(3 + e.rust.points.len() as u64);
            let line = match k {
                1 => r.one_of(&NAMES),
                2 => r.one_of(&SETTINGS),
                3 => r.one_of(&POINT_NAMES),
                _ => r.one_of(&POINTS),
            };
            s = with_line(&s, k as usize, line);
        }
        11 => s = with_line(&s, 2, &settings_line(r)),
        _ if e.rust.points.is_empty() => s += &(point_line(r, None) + "\n"),
        _ => {
            let i = r.below(e.rust.points.len() as u64) as usize;
            let last = i.checked_sub(1).map(|i| e.rust.points[i].time);
            s = with_line(&s, 4 + i, &point_line(r, last));
        }
    }
    s.into_bytes()
}

/// The text with another line k, from 1 on.
fn with_line(text: &str, k: usize, line: &str) -> String {
    let mut lines: Vec<&str> = text.lines().collect();
    lines[k - 1] = line;
    lines.join("\n") + "\n"
}

/// About 256 points, and what may follow; now and then the last line has a cause of a refusal.
fn full(r: &mut Random) -> String {
    let mut e = Envelope::new(7);
    e.hard = r.once_in(2);
    let count = r.one_of(&[255, 256, 256, 256, 256, 257]);
    let long = r.once_in(4);
    for i in 0..count {
        let mut p = AutomationPoint::new(i as f64, i as f32);
        if long {
            p.sample_position = Some(i);
            p.curve = r.curve();
        }
        e.rust.points.push(p);
    }
    let mut s = text::sheet(&e);
    match r.below(4) {
        0 => s += r.one_of(&REST),
        1 => s += &(point_line(r, Some(255.0)) + "\n"),
        2 => s = with_line(&s, 3 + count as usize, &point_line(r, Some(count as f64 - 2.0))),
        _ => {}
    }
    s
}

// ---- lines whose fields are spoiled now and then, so that causes meet

fn bad_field(r: &mut Random) -> String {
    const FIELDS: [&str; 16] = [
        "",
        "-",
        "0",
        "1",
        "x",
        "00",
        "- ",
        " -",
        "3f800000",
        "3F80000",
        "3F8000000",
        "3F80000G",
        "401000000000000",
        "40100000000000000",
        "401000000000000g",
        "-0",
    ];
    r.one_of(&FIELDS).into()
}

/// A limit, a value or a control.
fn single_field(r: &mut Random) -> String {
    match r.below(12) {
        0 => bad_field(r),
        1 => text::single(r.one_of(&NOT_FINITE) as f32),
        2 => r.one_of(&["FFC00001", "7F800001", "7FFFFFFF", "FF800000"]).into(),
        3 => r.one_of(&["7F7FFFFF", "FF7FFFFF", "00000001", "80000000"]).into(),
        _ => text::single(r.single()),
    }
}

fn settings_line(r: &mut Random) -> String {
    let target = match r.below(10) {
        0 => r.one_of(&["", "00", "01", "-", "-1", "+1", "0x1", "1A"]).into(),
        1 => r
            .one_of(&[
                "4294967295",
                "4294967296",
                "4294967297",
                "42949672950",
                "18446744073709551616",
            ])
            .into(),
        _ => r.below(1 << 32).to_string(),
    };
    let enabled = r.one_of(&["0", "1", "1", "1", "1", "1", "1", "1", "2", "-", "", "01"]);
    let mut s = format!("{target} {enabled}");
    for _ in 0..3 {
        s += " ";
        s += &if r.once_in(2) { "-".into() } else { single_field(r) };
    }
    s += &hard_field(r);
    s + more(r)
}

/// The space before the last setting, and the setting: now and then one of them isn't there, or it is no 0
/// or 1.
fn hard_field(r: &mut Random) -> String {
    match r.below(24) {
        0 => String::new(),
        1 => r.one_of(&[" ", "  0", "  1", "0", "1", " 0 1"]).into(),
        2 => r
            .one_of(&[" -", " 00", " 01", " 10", " 11", " x", " -1", " 00000000"])
            .into(),
        3 => format!(" {}", 2 + r.below(8)),
        k => format!(" {}", k % 2),
    }
}

/// What stands after a line's last field: mostly nothing.
fn more(r: &mut Random) -> &'static str {
    match r.below(20) {
        0 => r.one_of(&[" ", " -", " 00000000", "\r"]),
        _ => "",
    }
}

/// A line of a point after one at the time `last`.
fn point_line(r: &mut Random, last: Option<f64>) -> String {
    let at = last.unwrap_or(0.0);
    let time = match r.below(12) {
        0 => bad_field(r),
        1 => text::double(r.one_of(&NOT_FINITE)),
        2 => r
            .one_of(&["7FF0000000000001", "FFF8000000000000", "FFF0000000000000"])
            .into(),
        3 => text::double(at),
        4 => text::double(-at),
        5 => text::double(at - r.unit()),
        6 => text::word(at.to_bits().wrapping_add(r.below(3)).wrapping_sub(1)),
        _ => text::double(at + 1.0 + r.unit()),
    };
    let position = match r.below(12) {
        0 => bad_field(r),
        1..=4 => text::word(r.word()),
        _ => "-".into(),
    };
    let value = single_field(r);
    let code = match r.below(12) {
        0 => r.one_of(&["0", "000", "0A", "-", "", "+1", "-1", " 00"]).into(),
        1 => "06".into(),
        2 => r.one_of(&["21", "22", "23", "60", "99"]).into(),
        3..=5 => "05".into(),
        _ => format!("{:02}", r.below(22)),
    };
    let mut s = format!("{time} {position} {value} {code}");
    for _ in 0..2 {
        let plain = (code == "05") == r.once_in(20);
        s += " ";
        s += &if plain { "-".into() } else { single_field(r) };
    }
    s + more(r)
}
