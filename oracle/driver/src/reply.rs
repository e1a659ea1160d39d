//! The answer to a line.
use crate::calls::{call, Answer};
use crate::forms::signature;
use crate::session::{session, Sessions};
use crate::text::{self, Arg, Read, Registers, Words};

/// The answer to a call, which stands in the line before ` => `.
pub fn reply(call_text: &str, raw: bool, registers: &Registers, sessions: &mut Sessions) -> Read<Answer> {
    let words: Vec<&str> = call_text.split_whitespace().collect();
    let (op, rest) = words.split_first().ok_or("no word")?;
    match *op {
        "read_sheet" => {
            // its bytes have spaces
            let bytes = call_text.split_once("read_sheet ").map_or("", |parts| parts.1);
            Ok(call(op, &[Arg::S(text::unshown(bytes)?)], raw))
        }
        "session" => {
            let text = session(sessions, registers, rest)?;
            Ok(Answer { text, envelope: None })
        }
        _ if *op == "{" || op.starts_with('@') => {
            let e = Words::new(&words, registers).envelope()?;
            let text = format!("ok {}", text::envelope(&e, &[]));
            Ok(Answer {
                text,
                envelope: Some(e),
            })
        }
        _ => operation(op, rest, raw, registers),
    }
}

fn operation(op: &str, words: &[&str], raw: bool, registers: &Registers) -> Read<Answer> {
    let (kinds, _) = signature(op).ok_or(format!("no operation {op}"))?;
    let a = Words::new(words, registers).arguments(kinds)?;
    Ok(call(op, &a, raw))
}
