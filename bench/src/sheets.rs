//! The figures on sheets: both sides read the same bytes, or write the envelope that these hold, so many
//! times in one call.
use crate::figure::Figure;
use crate::inputs;
use crate::records::figure;

extern "C" {
    fn rattle_read_sheet(
        text: *const u8,
        text_len: usize,
        turns: u32,
        times: *mut f64,
        times_len: usize,
        values: *mut f32,
        values_len: usize,
    ) -> u64;
    fn rust_read_sheet(
        text: *const u8,
        text_len: usize,
        turns: u32,
        times: *mut f64,
        times_len: usize,
        values: *mut f32,
        values_len: usize,
    ) -> u64;
    fn rattle_write_sheet(text: *const u8, text_len: usize, turns: u32, out: *mut u8, out_len: usize) -> u64;
    fn rust_write_sheet(text: *const u8, text_len: usize, turns: u32, out: *mut u8, out_len: usize) -> u64;
}

const PLACES: usize = 256;
const ROOM: usize = 20_000;
const CODES: [u32; 21] = [
    0, 1, 2, 3, 4, 5, 7, 8, 9, 10, 11, 12, 13, 14, 15, 16, 17, 18, 19, 20, 21,
];

/// 256 points, every curve in turn, each third with a position.
fn sheet() -> &'static [u8] {
    let mut text = "target enabled min max step hard\n4000000000 1 00000000 - 3F800000 0\n".to_string();
    text += "time position value curve cp1 cp2\n";
    let values = inputs::singles(inputs::fractions());
    for (i, time) in inputs::rising(PLACES).into_iter().enumerate() {
        let position = match i % 3 {
            0 => format!("{:016X}", (time * 48_000.0) as u64),
            _ => "-".to_string(),
        };
        let code = CODES[i % CODES.len()];
        let controls = if code == 5 { "3E800000 3F400000" } else { "- -" };
        let (time, value) = (time.to_bits(), values[i].to_bits());
        text += &format!("{time:016X} {position} {value:08X} {code:02} {controls}\n");
    }
    text.into_bytes().leak()
}

/// What reading gives, as one number: a refusal and its line, or the count.
fn answer(rattle: bool, text: &[u8]) -> u64 {
    let read = if rattle {
        rattle_read_sheet
    } else {
        rust_read_sheet
    };
    let (mut times, mut values) = ([0.0; PLACES], [0.0; PLACES]);
    unsafe {
        read(
            text.as_ptr(),
            text.len(),
            1,
            times.as_mut_ptr(),
            PLACES,
            values.as_mut_ptr(),
            PLACES,
        )
    }
}

/// What writing gives back of a sheet that was read.
fn written(rattle: bool, text: &[u8]) -> Vec<u8> {
    let write = if rattle {
        rattle_write_sheet
    } else {
        rust_write_sheet
    };
    let mut out = vec![0; ROOM];
    let length = unsafe { write(text.as_ptr(), text.len(), 1, out.as_mut_ptr(), ROOM) };
    out.truncate(length as usize);
    out
}

/// Whether both refuse alike, and write alike what they accept: a byte changed in one of the first lines, or the
/// sheet cut there, or a line more.
fn refuse_alike(sheet: &[u8]) -> bool {
    let alike = |text: &[u8]| {
        let read = answer(true, text);
        read == answer(false, text) && (read % 16 != 0 || written(true, text) == written(false, text))
    };
    let changed = |at: usize, b: u8| {
        let mut text = sheet.to_vec();
        text[at] = b;
        text
    };
    (0..400).all(|at| alike(&sheet[..at]) && b"\n -0156789Fa".iter().all(|&b| alike(&changed(at, b))))
        && alike(&[sheet, b"x"].concat())
}

pub fn figures() -> Vec<Figure> {
    const TURNS: usize = 100;
    let sheet = sheet();
    let reading = figure(
        "read_sheet, 256",
        TURNS,
        1,
        Some(2.0),
        ("rattle_read_sheet", "rust_read_sheet"),
        PLACES,
        move |rattle, left, turns| {
            let read = if rattle {
                rattle_read_sheet
            } else {
                rust_read_sheet
            };
            let (times, values) = (left.times.as_mut_ptr(), left.values.as_mut_ptr());
            unsafe {
                read(
                    sheet.as_ptr(),
                    sheet.len(),
                    turns as u32,
                    times,
                    PLACES,
                    values,
                    PLACES,
                )
            }
        },
    );
    let same = reading.agree;
    let reading = Figure {
        agree: Box::new(move || same() && refuse_alike(sheet)),
        ..reading
    };
    let writing = figure(
        "write_sheet, 256",
        TURNS,
        1,
        None,
        ("rattle_write_sheet", "rust_write_sheet"),
        ROOM,
        move |rattle, left, turns| {
            let write = if rattle {
                rattle_write_sheet
            } else {
                rust_write_sheet
            };
            unsafe {
                write(
                    sheet.as_ptr(),
                    sheet.len(),
                    turns as u32,
                    left.bytes.as_mut_ptr(),
                    ROOM,
                )
            }
        },
    );
    vec![reading, writing]
}
