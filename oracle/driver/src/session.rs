//! Sessions by document 01's rule, with request F-2's of idle edits and request F-3's of commits: the only Rust in
//! this part is that of the edits, lookups and runs.
use crate::ask::{self, Cause};
use crate::calls::{call, Answer};
use crate::forms::{call_kinds, is_call, is_lookup, signature};
use crate::records::Envelope;
use crate::rules::hold;
use crate::same_bits::same_bits;
use crate::state::{before_opening, packed, sum, MEMORY, STATE};
use crate::text::{self, Arg, Read, Registers, Words};
use std::collections::HashMap;
use std::ops::Range;

pub type Sessions = HashMap<String, Session>;

/// The edits that count, each as the envelope after it; a mark among them; how many are kept. Beside
/// 01's state, the words of the step memory, of which the session is lent the first; for each slot the
/// envelope whose state was last written there since the opening; and which slots a `damage` has spoiled.
/// Edit number k has slot k mod D.
#[derive(Clone)]
pub struct Session {
    target: u32,
    words: u64,
    edits: Vec<Envelope>,
    mark: usize,
    kept: u64,
    stored: Vec<Option<Envelope>>,
    damaged: Vec<bool>,
    memory: Vec<u64>,
}

impl Session {
    fn new(target: u32, words: u64) -> Self {
        let slots = words as usize / STATE;
        Session {
            target,
            words,
            edits: vec![],
            mark: 0,
            kept: 0,
            stored: vec![None; slots],
            damaged: vec![false; slots],
            memory: before_opening(),
        }
    }

    /// The envelope after so many of the edits.
    fn after(&self, edits: usize) -> Envelope {
        match edits {
            0 => Envelope::new(self.target),
            n => self.edits[n - 1].clone(),
        }
    }

    pub fn envelope(&self) -> Envelope {
        self.after(self.mark)
    }

    /// Every envelope of the list, from the empty one on.
    pub fn envelopes(&self) -> Vec<Envelope> {
        (0..=self.edits.len()).map(|edits| self.after(edits)).collect()
    }

    /// The envelope before the last edit.
    pub fn before(&self) -> Option<Envelope> {
        self.mark.checked_sub(1).map(|edits| self.after(edits))
    }

    /// The envelope that the first entry after the mark gives.
    pub fn next(&self) -> Option<Envelope> {
        self.edits.get(self.mark).cloned()
    }

    pub fn kept(&self) -> u64 {
        self.kept
    }

    /// How many entries stand after the mark.
    pub fn ahead(&self) -> usize {
        self.edits.len() - self.mark
    }

    /// D, the steps that the memory has room for.
    pub fn room(&self) -> u64 {
        self.damaged.len() as u64
    }

    fn answer(&self) -> String {
        format!(
            "ok kept {} ahead {} {}",
            self.kept,
            self.ahead(),
            text::envelope(&self.envelope(), &[])
        )
    }

    fn slot(&self, edit: usize) -> usize {
        edit % self.damaged.len()
    }

    fn back(&mut self) -> Option<u32> {
        if self.kept == 0 {
            return Some(10);
        }
        if self.damaged[self.slot(self.mark - 1)] {
            return Some(12);
        }
        self.store(self.mark - 1);
        self.mark -= 1;
        self.kept -= 1;
        None
    }

    fn forward(&mut self) -> Option<u32> {
        if self.mark == self.edits.len() {
            return Some(10);
        }
        if self.damaged[self.slot(self.mark)] {
            return Some(12);
        }
        self.store(self.mark);
        self.mark += 1;
        self.kept += 1;
        None
    }

    /// The session's envelope, to an edit's slot.
    fn store(&mut self, edit: usize) {
        let (slot, state) = (self.slot(edit), packed(&self.envelope()));
        self.memory[slot * STATE..][..STATE].copy_from_slice(&state);
        self.stored[slot] = Some(self.envelope());
    }

    /// The length of the step memory that is lent.
    pub fn words(&self) -> u64 {
        self.words
    }

    /// The slots to which a state was written, and none of whose words a `damage` spoiled.
    pub fn whole(&self) -> Vec<u64> {
        let whole = |k: &u64| self.stored[*k as usize].is_some() && !self.damaged[*k as usize];
        (0..self.stored.len() as u64).filter(whole).collect()
    }

    /// The words to which no state was written: each such slot, and those after the slots.
    pub fn unwritten(&self) -> Vec<Range<u64>> {
        let (slots, state) = (self.stored.len() as u64, STATE as u64);
        let free = (0..slots).filter(|k| self.stored[*k as usize].is_none());
        let mut all: Vec<Range<u64>> = free.map(|k| k * state..(k + 1) * state).collect();
        all.push(slots * state..self.memory.len() as u64);
        all
    }

    /// The envelope whose state stands in a slot.
    fn in_slot(&self, slot: u64) -> Read<String> {
        if !self.whole().contains(&slot) {
            return Err("a slot without a whole state".into());
        }
        let e = self.stored[slot as usize].clone().unwrap();
        hold(
            self.memory[slot as usize * STATE..][..STATE] == packed(&e),
            "a slot's words",
        );
        Ok(format!("ok {}", text::envelope(&e, &[])))
    }

    /// The sum of words to which no state was written.
    fn sum_of(&self, from: u64, count: u64) -> Read<String> {
        let end = from.checked_add(count).ok_or("too many words")?;
        let free = self.unwritten();
        let none_written = (from..end).all(|k| free.iter().any(|part| part.contains(&k)));
        if count == 0 || !none_written {
            return Err("words of a state".into());
        }
        let words = &self.memory[from as usize..end as usize];
        Ok(format!("ok {}", text::word(sum(words))))
    }

    /// By 01 the memory holds the envelope before each kept edit, and the one that each entry after the
    /// mark gives.
    fn holds(&self) -> bool {
        let kept = self.mark - self.kept as usize..self.mark;
        let ahead = self.mark..self.edits.len();
        let states = kept.map(|k| (k, k)).chain(ahead.map(|k| (k, k + 1)));
        let mut held = states.filter(|(edit, _)| !self.damaged[self.slot(*edit)]);
        held.all(|(edit, at)| self.memory[self.slot(edit) * STATE..][..STATE] == packed(&self.after(at)))
    }

    /// An accepted edit. One that changes no bit of the envelope is idle: the list, the mark, kept and every
    /// word of the step memory stay.
    fn accept(&mut self, e: Envelope) {
        if !same_bits(&self.envelope(), &e) {
            self.join(e);
        }
    }

    /// The session as an idle edit would leave it if it counted.
    pub fn with_idle_counted(&self) -> Session {
        let mut s = self.clone();
        s.join(self.envelope());
        s
    }

    /// An edit that counts: entries after the mark go, and it joins the list.
    fn join(&mut self, e: Envelope) {
        if !self.damaged.is_empty() {
            let slot = self.slot(self.mark);
            self.damaged[slot] = false;
            self.store(self.mark);
        }
        self.edits.truncate(self.mark);
        self.edits.push(e);
        self.mark += 1;
        self.kept = (self.kept + 1).min(self.room());
    }

    /// All bits of a word are set: one of the settings, or the first or last word of a point, where
    /// no stored state has them all.
    fn damage(&mut self, slot: u64, word: u64) -> Read<()> {
        let damaged = self.damaged.get_mut(slot as usize).ok_or("no such slot")?;
        if word >= STATE as u64 || (word >= 4 && matches!(word % 4, 1 | 2)) {
            return Err("not a word whose damage shows".into());
        }
        *damaged = true;
        self.memory[slot as usize * STATE + word as usize] = u64::MAX;
        Ok(())
    }

    /// The session's envelope and the arguments that follow.
    fn arguments(&self, op: &str, mut words: Words) -> Read<Vec<Arg>> {
        let (kinds, _) = signature(op).unwrap();
        let mut a = vec![Arg::E(self.envelope())];
        a.extend(words.arguments(&kinds[1..])?);
        Ok(a)
    }

    /// One call, with a step memory of an `other` length than at opening or of the same.
    fn run(&mut self, other: bool, what: &str, mut words: Words) -> Read<String> {
        if is_lookup(what) {
            return Ok(call(what, &self.arguments(what, words)?, false).text);
        }
        if what == "edit" {
            return self.edit(other, words);
        }
        let kinds = call_kinds(what).ok_or(format!("no call {what}"))?;
        let refusal = match (what, &words.arguments(kinds)?[..]) {
            ("damage", [Arg::N(slot), Arg::N(word)]) => self.damage(*slot, *word).map(|_| None)?,
            ("show", []) => None,
            ("memory", []) => return Ok(self.sum_of_all()),
            ("commit", parts) => return Ok(self.commit(other, parts)),
            ("slot", [Arg::N(slot)]) => return self.in_slot(*slot),
            ("words", [Arg::N(from), Arg::N(count)]) => return self.sum_of(*from, *count),
            ("back" | "forward", []) if other => Some(11),
            ("back", []) => self.back(),
            ("forward", []) => self.forward(),
            _ => panic!("driver: session {what}"),
        };
        Ok(refusal.map_or_else(|| self.answer(), |n| format!("refuse {n}")))
    }

    fn sum_of_all(&self) -> String {
        hold(self.holds(), "the step memory");
        format!("ok {}", text::word(sum(&self.memory)))
    }

    /// An edit, with a step memory of an `other` length or the right one. A second envelope that is
    /// not valid comes before that.
    fn edit(&mut self, other: bool, mut words: Words) -> Read<String> {
        let op = words.word()?;
        let Some((_, 'e' | 'c')) = signature(op) else {
            return Err("not an edit".into());
        };
        let answer = call(op, &self.arguments(op, words)?, false);
        Ok(self.edited(answer, |_| other.then_some(11)))
    }

    /// The merge of a ticket's parts. An envelope of it that is not valid comes first, then the step memory's length,
    /// then a bit that the session's envelope has otherwise than the ticket's first, then the merge's own refusals.
    fn commit(&mut self, other: bool, parts: &[Arg]) -> String {
        let (before, causes) = (self.clone(), self.causes(other, parts));
        let stale = |s: &Session| (!same_bits(&s.envelope(), ask::parts(parts).0)).then_some(14);
        let text = self.edited(call("merge", parts, false), |s| {
            other.then_some(11).or_else(|| stale(s))
        });
        let refusal = causes.first().map(|c| format!("refuse {}", c.0));
        hold(
            refusal.as_ref() == Some(&text).filter(|t| t.starts_with("refuse")),
            "a commit's refusal",
        );
        if !causes.iter().any(|c| matches!(c.0, 1 | 11 | 14)) {
            self.hold_as_edit(before, &parts[1..], &text);
        }
        text
    }

    /// All causes for which a commit is refused, each by itself, in the papers' order: 1, 11, 14, then the others of
    /// the merge.
    pub fn causes(&self, other: bool, parts: &[Arg]) -> Vec<Cause> {
        let (mut causes, rest): (Vec<_>, Vec<_>) = ask::causes(parts).into_iter().partition(|c| c.0 == 1);
        if other {
            causes.push((11, "the length"));
        }
        if packed(&self.envelope()) != packed(ask::parts(parts).0) {
            causes.push((14, "a bit"));
        }
        causes.extend(rest);
        causes
    }

    /// A commit whose ticket is good answers and leaves what the same merge as an edit does.
    fn hold_as_edit(&self, mut before: Session, rest: &[Arg], text: &str) {
        let line = format!("merge{}", text::arguments(rest));
        let words: Vec<&str> = line.split(' ').collect();
        let registers = Registers::new();
        let answer = before.edit(false, Words::new(&words, &registers));
        hold(answer.as_deref() == Ok(text), "a commit's answer");
        let states = |s: &Session| s.edits.iter().map(packed).collect::<Vec<_>>();
        hold(self.memory == before.memory, "a commit's step memory");
        hold(states(self) == states(&before), "a commit's list");
    }

    /// The session after an edit's answer: what is refused `between` comes right after 1.
    fn edited(&mut self, answer: Answer, between: impl FnOnce(&Session) -> Option<u32>) -> String {
        if answer.text == "refuse 1" {
            return answer.text;
        }
        if let Some(n) = between(self) {
            return format!("refuse {n}");
        }
        let Some(e) = answer.envelope else {
            return answer.text;
        };
        self.accept(e);
        self.answer()
    }
}

/// How many words are lent; there are no more than the step memory has.
fn lent(words: &mut Words) -> Read<u64> {
    let length = words.decimal()?;
    if length > MEMORY {
        return Err("more words than the step memory has".into());
    }
    Ok(length)
}

/// The answer to `NAME open ..`, `NAME edit ..` and so on.
pub fn session(all: &mut Sessions, registers: &Registers, line: &[&str]) -> Read<String> {
    let mut words = Words::new(line, registers);
    let name = words.word()?;
    let mut what = words.word()?;
    if !is_call(what) {
        return Err(format!("no call {what}"));
    }
    if what == "open" {
        let (target, length) = (words.decimal()? as u32, lent(&mut words)?);
        words.end()?;
        let s = Session::new(target, length);
        let answer = s.answer();
        all.insert(name.into(), s);
        return Ok(answer);
    }
    let s = all.get_mut(name).ok_or("no such session")?;
    let mut other = false;
    if what == "len" {
        other = lent(&mut words)? != s.words;
        what = words.word()?;
        if !matches!(what, "edit" | "commit" | "back" | "forward") {
            return Err("a length is an edit's, a commit's or a step's".into());
        }
    }
    s.run(other, what, words)
}
