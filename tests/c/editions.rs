// What R-7 is about: a request of a device that may come from 4G, judged by the second program, and how often each case came, of it and of a card's edition.
use crate::draws::{ends_from_s1, Ask};
use crate::second::{mapped, reads, write_from_s1};
use crate::valid::valid;
use crate::{alike, equal, hold, Got, Plain, ATTACH, CARD, EDITION, EVENT, FROM_S1, MAPPED};

pub fn judge(ask: &Ask, got: &Got) -> Result<(), String> {
    let (access, [attach, buffer]) = (ask.small[0], &ask.arrays);
    let mut want = buffer.clone();
    let (answer, length) = if valid(&ask.record) { write_from_s1(&ask.record, access, &ask.s1, attach, &mut want) } else { (1, 0) };
    equal("the answer to a request from S1", got.answer, answer)?;
    hold(got.length == length, &format!("the length is {}, not {length}", got.length))?;
    alike("the buffer of a request from S1", &got.arrays[1], &want)?;
    alike("the record that is only read", got.record.octets(), ask.record.octets())?;
    let read = answer > 0 || reads(&ask.record, access, &ask.s1, attach, &want[..length as usize]);
    hold(read, "the request from S1 does not read back")
}

#[derive(Default)]
pub struct Tally {
    cases: [u64; 12],
    lacks: [u64; 5],
    refusals: [u64; 8],
    shapes: [[u64; 4]; 2],
    cards: [u64; 10],
}

/// The mapped case written: by edition 2 with a native 4G-GUTI and with another, by edition 3; over each access; without 77, without 70, with all three; with as long an attach message
/// as there may be. Not the mapped case, though all facts are lent: by edition 1, in an update by edition 2, in one by edition 3.
fn cases(ask: &Ask, got: &Got) -> [bool; 12] {
    if ask.call != FROM_S1 || got.answer != 0 {
        return [false; 12];
    }
    let (r, facts, attach) = (&ask.record, ask.s1.facts.map(|fact| fact != 0), ask.arrays[0].len());
    let (is, guti) = (mapped(r, ask.small[0], &ask.s1), r.access.iter().any(|a| a.guti == 1));
    let (edition, initial) = (r.dev.edition, r.access[ask.small[0] as usize].regtype == 1);
    let all = facts == [true; 5];
    [
        is && edition == 2 && all,
        is && edition == 2 && !all,
        is && edition == 3,
        is && ask.small[0] == 0,
        is && ask.small[0] == 1,
        is && !guti,
        is && attach == 0,
        is && guti && attach > 0,
        is && attach == ATTACH as usize,
        edition == 1 && initial && all,
        edition == 2 && !initial && all,
        edition == 3 && !initial && all,
    ]
}

/// An initial registration of edition 2 or 3 that lacks one fact alone, and so is not the mapped case; the last is native, of edition 3.
fn lacks(ask: &Ask, got: &Got) -> [bool; 5] {
    let facts = ask.s1.facts.map(|fact| fact != 0);
    let written = ask.call == FROM_S1 && got.answer == 0 && !mapped(&ask.record, ask.small[0], &ask.s1);
    let alone = facts.iter().filter(|fact| **fact).count() == 4 && ask.record.dev.edition > 1;
    let initial = ask.record.access[ask.small[0] as usize % 2].regtype == 1;
    facts.map(|fact| written && alone && initial && !fact)
}

/// Refused for one reason: the access, the record, the attach message, an unused one in edition 1, the state, the buffer. Then 1 for the attach message where 6 is a reason too, and
/// where 12 is.
fn refusals(ask: &Ask, got: &Got) -> [bool; 8] {
    if ask.call != FROM_S1 || got.answer == 0 {
        return [false; 8];
    }
    let (r, access, [attach, buffer]) = (&ask.record, ask.small[0], &ask.arrays);
    let whole = ends_from_s1(r, access, &ask.s1, attach.len() as u32)[3];
    let why = [access > 1, !valid(r), attach.len() > ATTACH as usize, r.access[access as usize % 2].state != 4, buffer.len() < whole as usize];
    let alone = why.iter().filter(|why| **why).count() == 1;
    let [other, invalid, long, state, short] = why;
    let first = got.answer == 1 && long && !other && !invalid;
    [other && alone, invalid && alone, long && alone, long && r.dev.edition == 1, state && alone, short && alone, first && state, first && short]
}

/// The mapped case without a container and with one: written, into a buffer that just fits, at its longest, refused for one octet.
fn shapes(ask: &Ask, got: &Got) -> [[bool; 4]; 2] {
    if ask.call != FROM_S1 || ![0, 12].contains(&got.answer) || !mapped(&ask.record, ask.small[0], &ask.s1) {
        return [[false; 4]; 2];
    }
    let shape = (ask.record.access[ask.small[0] as usize].ksi < 7) as usize;
    let (len, whole) = (ask.arrays[1].len() as u32, ends_from_s1(&ask.record, ask.small[0], &ask.s1, ask.arrays[0].len() as u32)[3]);
    let came = [len >= whole, len == whole, len >= whole && whole == MAPPED[shape], len + 1 == whole];
    [0, 1].map(|each| came.map(|came| came && each == shape))
}

/// A card of kind 11 taken with each edition, and one of kind 1 where the edition was another than 1. Kind 11 refused on a valid record: for edition 0, for 4, for one above; for a body
/// of 12 octets, of 69. Last, a power cycle that leaves an edition above 1.
fn cards(ask: &Ask, got: &Got) -> [bool; 10] {
    if ask.call != EVENT || !valid(&ask.record) {
        return [false; 10];
    }
    let (body, was) = (&ask.arrays[0], ask.record.dev.edition);
    let of = |kind: u32, answer: u32| (ask.kind, got.answer) == (kind, answer);
    let named = |right: &dyn Fn(u8) -> bool| body.first().is_some_and(|edition| right(*edition));
    let (sized, known) = ((13..=68).contains(&body.len()), named(&|edition| (1..=3).contains(&edition)));
    [
        of(EDITION, 0) && named(&|edition| edition == 1),
        of(EDITION, 0) && named(&|edition| edition == 2),
        of(EDITION, 0) && named(&|edition| edition == 3),
        of(CARD, 0) && was > 1,
        of(EDITION, 1) && sized && named(&|edition| edition == 0),
        of(EDITION, 1) && sized && named(&|edition| edition == 4),
        of(EDITION, 1) && sized && named(&|edition| edition > 4),
        of(EDITION, 1) && known && body.len() == 12,
        of(EDITION, 1) && known && body.len() == 69,
        of(5, 0) && was > 1 && got.record.dev.edition == was,
    ]
}

impl Tally {
    pub fn count(&mut self, ask: &Ask, got: &Got) {
        let counts = self.cases.iter_mut().chain(&mut self.lacks).chain(&mut self.refusals).chain(self.shapes.as_flattened_mut()).chain(&mut self.cards);
        let came = [&cases(ask, got)[..], &lacks(ask, got), &refusals(ask, got), shapes(ask, got).as_flattened(), &cards(ask, got)].concat();
        for (count, came) in counts.zip(came) {
            *count += came as u64;
        }
    }

    pub fn unseen(&self) -> bool {
        [&self.cases[..], &self.lacks, &self.refusals, self.shapes.as_flattened(), &self.cards].iter().any(|counts| counts.contains(&0))
    }

    pub fn show(&self) {
        let [native, other, third, mobile, wifi, alone, silent, whole, longest, first, update, update3] = self.cases;
        let [registered, n26, context, valid, own] = self.lacks;
        let [access, record, long, unused, state, short, before6, before12] = self.refusals;
        let [one, two, three, back, zero, four, above, cut, over, kept] = self.cards;
        println!("fuzz: mapped by edition 2 {native} times from a native 4G-GUTI, {other} from another, by edition 3 {third}; over access 0 {mobile} times, over access 1 {wifi}");
        println!("fuzz: mapped without 77 {alone} times, without 70 {silent}, with all three {whole}, with the longest attach message {longest}");
        println!("fuzz: not mapped with all facts: by edition 1 {first} times, in an update by edition 2 {update}, by 3 {update3}");
        println!("fuzz: not mapped for one fact: registered {registered} times, n26 {n26}, context {context}, valid {valid}, native {own}");
        println!("fuzz: requests from S1 refused for one reason: access {access} times, record {record}, attach message {long}, state {state}, buffer {short}");
        println!("fuzz: an attach message too long in edition 1 {unused} times, 1 before 6 {before6}, 1 before 12 {before12}");
        for (shape, [written, fitted, longest, lacked]) in ["no container", "a container"].iter().zip(self.shapes) {
            println!("fuzz: mapped with {shape} {written} times written, {fitted} into a buffer that just fits and {longest} at their longest, {lacked} refused for one octet");
        }
        println!("fuzz: cards of edition 1 {one} times, 2 {two}, 3 {three}, of kind 1 behind another {back}; an edition above 1 kept by {kept} power cycles");
        println!("fuzz: cards refused for edition 0 {zero} times, 4 {four}, above {above}; for a body of 12 octets {cut}, of 69 {over}");
    }
}
