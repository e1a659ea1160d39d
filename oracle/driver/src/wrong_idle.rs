//! Wrong lines on idle edits: what would be right if an idle edit were a step, or if one that changes a bit
//! were none.
use crate::forms::session_edits;
use crate::idle::{given, Edit};
use crate::nearly::one_thing;
use crate::random::Random;
use crate::records::{CurveType, Envelope};
use crate::text::Arg::*;
use crate::wrong::{full, point};
use crate::wrong_sessions::{add, edit, Script, OPEN};
use std::collections::BTreeMap;
use std::io::{Result, Write};

fn call((op, a): &Edit) -> String {
    edit(op, a)
}

/// Edits after which each operation can be idle: two points, and replacements. One edit a line.
fn bases() -> Vec<String> {
    let curve = C(CurveType::SCurve);
    let ramp = [D(1.0), F(0.5), F(0.5), C(CurveType::Linear)];
    let pulse = [D(0.5), D(1.0), D(0.25), curve.clone()];
    let points = [(0.0, None, 0.5), (1.0, Some(48000), 2.0)];
    let [first, second] = points.map(|(t, k, v)| point(t, k, v, CurveType::Bezier(0.25, 0.75)));
    vec![
        add(first) + "\n" + &add(second),
        edit("ramp", &ramp),
        edit("fade_in", &[D(2.0), curve.clone()]),
        edit("fade_out", &[D(2.0), curve]),
        edit("pulse", &pulse),
    ]
}

/// What a session's answer says, with other counts of those kept and ahead.
pub fn counts(answer: &str, kept: u64, ahead: usize) -> String {
    let envelope = answer.split_once('{').unwrap().1;
    format!("ok kept {kept} ahead {ahead} {{{envelope}")
}

/// An opening, some edits, and one more that is taken back: it stands ahead.
pub fn one_ahead<W: Write>(script: &mut Script<W>, open: &str, edits: &str) -> Result<()> {
    script.wrong(open, 0)?;
    for (k, call) in edits.lines().enumerate() {
        script.wrong(call, k)?;
    }
    script.wrong(&edit("set_step", &[O(Some(0.125))]), 1)?;
    script.wrong("back", 2)?;
    Ok(())
}

/// An idle edit of each operation, where a step stands ahead: as one that counts and clears it, in part or in
/// whole, and with a refusal.
fn idle_edits<W: Write>(script: &mut Script<W>, r: &mut Random) -> Result<()> {
    let mut left = session_edits();
    for base in bases() {
        one_ahead(script, OPEN, &base)?;
        let (e, kept) = (script.session().envelope(), script.session().kept());
        let right = script.answers(script.session(), &["show"]).remove(0);
        for op in std::mem::take(&mut left) {
            let Some(idle) = r.idle_by(op, &e, 40) else {
                left.push(op);
                continue;
            };
            let idle = call(&idle);
            for (k, a) in [(kept + 1, 0), (kept, 0), (kept + 1, 1)] {
                script.answered(&idle, &counts(&right, k, a))?;
            }
            script.answered(&idle, &format!("refuse {}", r.one_of(&[1, 3, 6, 10, 11, 12, 14])))?;
        }
    }
    assert!(left.is_empty(), "no wrong line of an idle {left:?}");
    Ok(())
}

/// After idle edits, answers that would be right if they counted: the step forward that still stands, the
/// step back that moves, the step memory. First with a step ahead, then with as many kept as the memory has
/// room for.
fn after_idle<W: Write>(script: &mut Script<W>, r: &mut Random) -> Result<()> {
    for op in ["quantize_time", "set_hard", "merge", "add_point", "scale_time"] {
        one_ahead(script, OPEN, &bases()[0])?;
        idle_now(script, r, op)?;
        as_if_counted(script, &["memory", "slot 2"])?;
        idle_now(script, r, op)?;
        script.answered("forward", "refuse 10")?;
        idle_now(script, r, op)?;
        as_if_counted(script, &["memory", "slot 0", "back"])?;
    }
    // right after the opening
    script.wrong(OPEN, 1)?;
    idle_now(script, r, "set_enabled")?;
    as_if_counted(script, &["show", "memory", "back"])
}

/// An idle edit of an operation as the session stands, with a wrong answer.
fn idle_now<W: Write>(script: &mut Script<W>, r: &mut Random, op: &'static str) -> Result<()> {
    let edit = r.idle_by(op, &script.session().envelope(), 100);
    script.wrong(&call(&edit.unwrap()), 1)?;
    Ok(())
}

/// Calls with the answers that they have if the idle edit before them counted.
pub fn as_if_counted<W: Write>(script: &mut Script<W>, calls: &[&str]) -> Result<()> {
    let wrong = script.answers(&script.session().with_idle_counted(), calls);
    for (call, wrong) in calls.iter().zip(wrong) {
        script.answered(call, &wrong)?;
    }
    Ok(())
}

/// Edits that would change nothing and are refused, with the answer of an idle one: by the length of the step
/// memory, an envelope that is not valid, a number that isn't finite, crossed bounds.
fn refused<W: Write>(script: &mut Script<W>) -> Result<()> {
    let mut bad = Envelope::new(1);
    bad.rust.step_size = Some(f32::NAN);
    script.wrong(OPEN, 2)?;
    let show = script.answers(script.session(), &["show"]).remove(0);
    for call in [
        format!("len 3084 {}", edit("set_enabled", &[B(true)])),
        edit("merge", &[E(bad), D(0.0)]),
        edit("scale", &[F(f32::INFINITY)]),
        edit("clamp_values", &[F(1.0), F(0.0)]),
    ] {
        script.answered(&call, &show)?;
    }
    Ok(())
}

/// An envelope of which a bit of each kind of field can be changed.
pub fn rich() -> String {
    let points = [
        point(-1.0, Some(3), 0.25, CurveType::Bezier(0.0, 0.75)),
        point(-0.5, None, 0.75, CurveType::Linear),
        point(-0.3, None, -0.0, CurveType::Linear),
        point(-0.0, None, 2.0, CurveType::SCurve),
    ];
    let limits = [("set_min", 0.0), ("set_max", 1.5)];
    let limits = limits.map(|(op, x)| edit(op, &[O(Some(x))]));
    [limits.to_vec(), points.map(add).to_vec()].concat().join("\n")
}

/// The shortest edit of each kind that changes one thing of an envelope.
fn nearly(r: &mut Random, e: &Envelope) -> Vec<Edit> {
    let mut best: BTreeMap<&str, Edit> = BTreeMap::new();
    for _ in 0..3000 {
        let Some(edit) = r.nearly_idle(e) else { continue };
        let kind = one_thing(e, &given(e, &edit).unwrap()).unwrap();
        let shorter = |other: &Edit| call(&edit).len() < call(other).len();
        if best.get(kind).is_none_or(shorter) {
            best.insert(kind, edit);
        }
    }
    assert!(best.len() == 15, "{:?}", best.keys());
    best.into_values().collect()
}

/// An edit that counts, as if it were idle: with the answer of an idle one, with its counts alone, and steps
/// after it as an idle one leaves them.
pub fn as_if_idle<W: Write>(script: &mut Script<W>, edit: &str) -> Result<()> {
    let s = script.session().clone();
    let [show, forward, back, after] =
        ["show", "forward", "back", edit].map(|call| script.answers(&s, &[call]).remove(0));
    script.answered(edit, &show)?;
    script.answered("forward", &forward)?;
    script.answered("back", &back)?;
    script.answered(edit, &counts(&after, s.kept(), s.ahead()))?;
    script.answered("back", "refuse 10")
}

/// Edits that change one thing, the 256th place's position among them.
fn nearly_idle<W: Write>(script: &mut Script<W>, r: &mut Random) -> Result<()> {
    one_ahead(script, "open 7 16384", &rich())?;
    for edit in nearly(r, &script.session().envelope()) {
        as_if_idle(script, &call(&edit))?;
    }
    let full = full();
    let mut last = full.rust.points[255].clone();
    last.sample_position = Some(0);
    one_ahead(script, OPEN, &edit("merge", &[E(full), D(0.0)]))?;
    as_if_idle(script, &add(last))
}

/// An edit that leads to the envelope before the last one is no step back, and one to the envelope ahead
/// counts.
fn undone<W: Write>(script: &mut Script<W>) -> Result<()> {
    let [on, off] = [true, false].map(|b| edit("set_hard", &[B(b)]));
    script.wrong(OPEN, 0)?;
    script.wrong(&on, 1)?;
    let back = script.answers(script.session(), &["back", "forward"]);
    script.answered(&off, &back[0])?;
    script.answered("forward", &back[1])?;
    script.wrong("back", 0)?;
    script.wrong("back", 1)?;
    as_if_idle(script, &on)
}

pub fn write<W: Write>(script: &mut Script<W>, r: &mut Random) -> Result<()> {
    idle_edits(script, r)?;
    after_idle(script, r)?;
    refused(script)?;
    nearly_idle(script, r)?;
    undone(script)
}
