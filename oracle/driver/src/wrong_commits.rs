//! Wrong lines on asks and commits (request F-3): the counts that a careless merge has; a stale ticket taken for a good one
//! and the other way round, in each thing that may differ; a refusal where one before it is due; and a commit that
//! is idle as if it counted, and the other way round.
use crate::calls::call;
use crate::changed::{in_thing, WAYS};
use crate::random::Random;
use crate::records::{of_points, CurveType, Envelope};
use crate::text::{arguments, Arg::*};
use crate::tickets::Ticket;
use crate::wrong::{full, point};
use crate::wrong_idle::{as_if_counted, as_if_idle, counts, one_ahead, rich};
use crate::wrong_sessions::{edit, Script, OPEN};
use std::io::{Result, Write};

/// An envelope with points at these times, each with another value.
fn at(times: &[f64]) -> Envelope {
    let new = |(k, t): (usize, &f64)| point(*t, None, k as f32 + 0.5, CurveType::Linear);
    let points: Vec<_> = times.iter().enumerate().map(new).collect();
    of_points(&points)
}

fn ticket(first: &Envelope, second: &Envelope, offset: f64) -> Ticket {
    Ticket {
        first: first.clone(),
        second: second.clone(),
        offset,
    }
}

/// One whose times fall.
fn not_valid() -> Envelope {
    at(&[1.0, 0.0])
}

/// So many points that go far beyond what an f64 holds, and don't fall together.
fn far(count: usize) -> Envelope {
    let times: Vec<f64> = (1..=count).map(|k| f64::MAX / count as f64 * k as f64).collect();
    at(&times)
}

// ---- asks

/// Parts of asks, each with answers that are wrong: the count of both together, of one alone, of times compared as
/// numbers, without the offset; a refusal where there is an answer, an answer where there is a refusal, and another one.
fn asks() -> Vec<(Ticket, Vec<&'static str>)> {
    let (two, all) = (at(&[0.0, 1.0]), full());
    vec![
        (
            ticket(&two, &at(&[1.0, 2.0]), -0.0),
            vec!["ok 4", "ok 2", "ok 3~", "refuse 3", "refuse 14"],
        ),
        (ticket(&two, &at(&[1.5]), -0.5), vec!["ok 3", "ok 1", "refuse 1"]),
        (ticket(&two, &two, 0.0), vec!["ok 4", "ok 3", "refuse 6"]),
        (ticket(&two, &at(&[]), 1.0), vec!["ok 0", "ok 3", "refuse 5"]),
        (ticket(&at(&[]), &at(&[-0.0, 0.0]), 0.0), vec!["ok 2", "refuse 6"]),
        (
            ticket(&at(&[]), &at(&[-0.0, 0.0]), -0.0),
            vec!["ok 1", "refuse 6"],
        ),
        (ticket(&at(&[0.0]), &at(&[-0.0]), -0.0), vec!["ok 1", "refuse 6"]),
        (ticket(&at(&[-0.0]), &at(&[-0.0]), 0.0), vec!["ok 1", "refuse 6"]),
        (ticket(&at(&[]), &at(&[0.5, 1.0]), 1e16), vec!["ok 2", "refuse 6"]),
        (ticket(&all, &at(&[7.0]), 0.0), vec!["ok 257", "refuse 5"]),
        (
            ticket(&all, &at(&[7.0]), 0.5),
            vec!["ok 257", "ok 256", "refuse 1", "refuse 14"],
        ),
        (
            ticket(&two, &far(2), f64::MAX),
            vec!["ok 4", "ok 3", "refuse 1", "refuse 5"],
        ),
        (
            ticket(&two, &far(256), f64::MAX / 2.0),
            vec!["refuse 5", "ok 256"],
        ),
        (
            ticket(&two, &two, f64::INFINITY),
            vec!["ok 4", "ok 2", "refuse 1", "refuse 13"],
        ),
        (
            ticket(&two, &not_valid(), f64::NAN),
            vec!["refuse 3", "ok 2", "refuse 11"],
        ),
        (
            ticket(&not_valid(), &two, f64::NAN),
            vec!["refuse 3", "ok 2", "refuse 14"],
        ),
        (ticket(&not_valid(), &two, 0.0), vec!["ok 2", "refuse 6"]),
    ]
}

pub fn asked() -> Vec<String> {
    let line = |t: &Ticket, wrong: &str| {
        let a = t.arguments();
        let right = call("ask", &a, false).text;
        assert!(right != wrong, "ask{} => {wrong}", arguments(&a));
        format!("ask{} => {wrong}", arguments(&a))
    };
    let of = |(t, wrong): (Ticket, Vec<&str>)| wrong.iter().map(|w| line(&t, w)).collect::<Vec<_>>();
    asks().into_iter().flat_map(of).collect()
}

// ---- commits

fn commit(t: &Ticket) -> String {
    format!("commit{}", arguments(&t.arguments()))
}

/// What is merged: a point that comes in, and one that is replaced.
fn more(e: &Envelope) -> Envelope {
    let mut more = at(&[2.5]);
    more.rust.points.extend(e.rust.points.first().cloned());
    more.rust.points.sort_by(|p, q| p.time.total_cmp(&q.time));
    more.rust.points[0].value = 0.125;
    more
}

/// A good ticket, as the session stands.
fn good<W: Write>(script: &Script<W>) -> Ticket {
    let e = script.session().envelope();
    ticket(&e, &more(&e), 0.0)
}

/// The answer of a session in which the ticket's parts were merged, whatever its envelope.
fn as_if_taken<W: Write>(script: &Script<W>, t: &Ticket) -> String {
    let s = script.session();
    let merged = call("merge", &t.arguments(), false).text;
    counts(&merged, (s.kept() + 1).min(s.room()), 0)
}

/// Each field of a commit's answer, with a length and without; of each refusal; and that of a commit that is
/// taken for a stale one.
fn fields<W: Write>(script: &mut Script<W>) -> Result<()> {
    script.start()?;
    let t = good(script);
    let (call, e) = (commit(&t), t.first.clone());
    script.all(&[&call, "back"])?;
    script.all(&[&format!("len 3100 {call}"), "back"])?;
    script.answered(&call, "refuse 14")?;
    script.answered("back", "refuse 10")?;
    let other = Ticket {
        first: at(&[]),
        ..t.clone()
    };
    for refused in [
        commit(&ticket(&not_valid(), &e, 0.0)),
        commit(&ticket(&e, &not_valid(), 0.0)),
        format!("len 3084 {call}"),
        commit(&other),
        commit(&ticket(&e, &t.second, f64::NEG_INFINITY)),
        commit(&ticket(&e, &far(2), f64::MAX)),
    ] {
        script.all(&[&refused])?;
    }
    Ok(())
}

/// Commits for which more than one cause of a refusal is there: each later cause in the place of the first; and the
/// answer of an idle one.
fn order<W: Write>(script: &mut Script<W>) -> Result<()> {
    script.start()?;
    let e = script.session().envelope();
    let (stale, bad, nan) = (at(&[]), not_valid(), f64::NAN);
    let (near, all) = (ticket(&e, &more(&e), 0.0), full());
    for (other, t) in [
        (false, ticket(&e, &bad, nan)),
        (false, ticket(&bad, &near.second, nan)),
        (false, ticket(&stale, &bad, 0.0)),
        (true, ticket(&stale, &bad, nan)),
        (true, ticket(&e, &bad, 0.0)),
        (true, ticket(&bad, &near.second, 0.0)),
        (true, ticket(&stale, &near.second, nan)),
        (true, ticket(&e, &near.second, nan)),
        (true, ticket(&stale, &far(2), f64::MAX)),
        (false, ticket(&stale, &near.second, nan)),
        (false, ticket(&stale, &far(2), f64::MAX)),
        (false, ticket(&at(&[0.5]), &all, 0.0)),
        (true, ticket(&e, &all, 0.5)),
        (false, ticket(&e, &far(256), f64::MAX / 2.0)),
        (true, near),
        (false, ticket(&stale, &at(&[]), 0.0)),
        (false, ticket(&e, &all, 0.5)),
    ] {
        let length = if other { "len 2056 " } else { "" };
        let call = format!("{length}{}", commit(&t));
        let causes = script.session().causes(other, &t.arguments());
        let first = causes[0].0;
        let later = causes.iter().map(|c| c.0).filter(|n| *n != first);
        for n in later {
            script.answered(&call, &format!("refuse {n}"))?;
        }
        let show = script.answers(script.session(), &["show"]).remove(0);
        script.answered(&call, &show)?;
    }
    Ok(())
}

/// Tickets whose first differs in one thing, of each kind: as good ones, whose parts are merged into the session's
/// envelope or into the ticket's first; as idle ones; and with another refusal. Then what would be right if one had
/// been taken.
fn stale<W: Write>(script: &mut Script<W>, r: &mut Random) -> Result<()> {
    one_ahead(script, "open 7 16384", &rich())?;
    let t = good(script);
    let show = script.answers(script.session(), &["show"]).remove(0);
    let accepted = script.answers(script.session(), &[&commit(&t)]).remove(0);
    for (way, n) in WAYS.iter().zip([1, 3, 5, 11, 10, 12, 13].into_iter().cycle()) {
        let first = in_thing(r, &t.first, way, 200).unwrap_or_else(|| panic!("driver: no other {}", way.0));
        let old = Ticket { first, ..t.clone() };
        let call = commit(&old);
        script.answered(&call, &accepted)?;
        script.answered(&call, &as_if_taken(script, &old))?;
        script.answered(&call, &format!("refuse {n}"))?;
        let idle = commit(&ticket(&old.first, &at(&[]), 0.0));
        script.answered(&idle, &show)?;
    }
    // and nothing is altered by them
    let taken = script.answers(script.session(), &[&commit(&t), "memory", "back"]);
    script.answered("memory", &taken[1])?;
    script.answered("show", &taken[0])?;
    script.answered("forward", "refuse 10")?;
    script.answered("back", &accepted)
}

/// Tickets committed again: right away, where they are stale; after a step back, and after another edit that is
/// stepped back over, where they are good; after a step forward.
fn again<W: Write>(script: &mut Script<W>) -> Result<()> {
    script.start()?;
    let t = good(script);
    let call = commit(&t);
    script.wrong(&call, 3)?;
    script.answered(&call, &as_if_taken(script, &t))?;
    let show = script.answers(script.session(), &["show"]).remove(0);
    script.answered(&call, &show)?;
    script.wrong("back", 0)?;
    script.answered(&call, "refuse 14")?;
    script.wrong("back", 1)?;
    script.wrong(&edit("set_hard", &[B(true)]), 2)?;
    script.answered(&call, &as_if_taken(script, &t))?;
    script.wrong("back", 2)?;
    script.answered(&call, "refuse 14")?;
    script.wrong("back", 3)?;
    script.wrong("forward", 0)?;
    script.answered(&call, &as_if_taken(script, &t))?;
    script.wrong("back", 0)?;
    script.answered(&call, "refuse 11")
}

/// A merge that changes nothing: of no points, of points that are there, of times that the offset brings to them.
fn idle_tickets(e: &Envelope) -> Vec<Ticket> {
    let mut moved = e.clone();
    moved.rust.points.iter_mut().for_each(|p| p.time -= 0.5);
    let other = Envelope {
        hard: !e.hard,
        ..e.clone()
    };
    vec![
        ticket(e, &at(&[]), 3.5),
        ticket(e, &other, 0.0),
        ticket(e, &moved, 0.5),
    ]
}

/// Idle commits, where a step stands ahead: as ones that count and clear it, and with a refusal; then what would be
/// right if they had counted.
fn idle<W: Write>(script: &mut Script<W>) -> Result<()> {
    let base = [0.5, 2.0].map(|t| edit("add_point", &[P(point(t, None, 1.0, CurveType::SCurve))]));
    one_ahead(script, OPEN, &base.join("\n"))?;
    let (e, kept) = (script.session().envelope(), script.session().kept());
    let show = script.answers(script.session(), &["show"]).remove(0);
    for t in idle_tickets(&e) {
        let call = commit(&t);
        for (k, a) in [(kept + 1, 0), (kept, 0), (kept + 1, 1)] {
            script.answered(&call, &counts(&show, k, a))?;
        }
        script.answered(&call, "refuse 14")?;
        as_if_counted(script, &["memory", "slot 2"])?;
        script.answered(&call, "refuse 10")?;
        script.answered("forward", "refuse 10")?;
        script.wrong("back", 1)?;
    }
    // with as many kept as the memory has room for
    script.wrong("forward", 0)?;
    let call = commit(&idle_tickets(&script.session().envelope())[1]);
    script.wrong(&call, 2)?;
    as_if_counted(script, &["memory", "slot 0", "back"])
}

/// Commits that change a bit, as if they were idle.
fn counting<W: Write>(script: &mut Script<W>, r: &mut Random) -> Result<()> {
    one_ahead(script, "open 7 16384", &rich())?;
    let e = script.session().envelope();
    let of_points = ["position", "value", "value, sign of 0", "curve", "control"];
    for way in WAYS.iter().filter(|way| of_points.contains(&way.0)) {
        let second = in_thing(r, &e, way, 200).unwrap_or_else(|| panic!("driver: no other {}", way.0));
        as_if_idle(script, &commit(&ticket(&e, &second, -0.0)))?;
    }
    // from -0.0 to 0.0, which is one point more
    as_if_idle(script, &commit(&ticket(&e, &e, 0.0)))
}

pub fn write<W: Write>(script: &mut Script<W>, r: &mut Random) -> Result<()> {
    fields(script)?;
    order(script)?;
    stale(script, r)?;
    again(script)?;
    idle(script)?;
    counting(script, r)
}
