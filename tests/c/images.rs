// What is kept over a power cut: whether an event's notice tells of a change, the image of a record and what octets load back to, judged by the second program, and how often each
// case came.
use crate::draws::Ask;
use crate::image::{checksum, LENGTH};
use crate::second::{self, Plain};
use crate::valid::valid;
use crate::{alike, equal, hold, Got, EVENT, LOAD, SAVE};

const RANGE: u32 = 1;
const SHORT: u32 = 12;
const VERSION: u32 = 23;
const DAMAGED: u32 = 24;

/// A notice tells whether any field is another. One that tells of no change tells of no timer either: the table too is as it was saved.
pub fn judge_change(ask: &Ask, got: &Got) -> Result<(), String> {
    let (clocks, others) = (got.notice.clocks, [got.notice.t3247, got.notice.t3512]);
    let quiet = clocks.as_flattened().iter().chain(&others).all(|[told, _]| *told == 0);
    equal("what the notice says of a change", got.notice.changed, second::changed(&ask.record, &got.record) as u32)?;
    hold(quiet || got.notice.changed == 1, "the notice tells of a timer, and of no change")
}

pub fn judge_save(ask: &Ask, got: &Got) -> Result<(), String> {
    let mut want = ask.arrays[0].clone();
    equal("the answer of a save", got.answer, second::save(&ask.record, &ask.table, ask.kind, &mut want))?;
    alike("the buffer of a save", &got.arrays[0], &want)?;
    alike("the record that is only read", got.record.octets(), ask.record.octets())?;
    alike("the table that is only read", got.table.octets(), ask.table.octets())
}

pub fn judge_load(ask: &Ask, got: &Got) -> Result<(), String> {
    let loaded = second::load(&ask.arrays[0]);
    equal("the answer of a load", got.answer, loaded.err().unwrap_or(0))?;
    let (record, table, serial) = loaded.unwrap_or((ask.record, ask.table, ask.serial));
    alike("the record after a load", got.record.octets(), record.octets())?;
    alike("the table after a load", got.table.octets(), table.octets())?;
    equal("the serial after a load", got.serial, serial)?;
    hold(got.answer != 0 || valid(&got.record), "a record was loaded that is invalid")
}

#[derive(Default)]
pub struct Tally {
    changes: [u64; 4],
    saves: [u64; 7],
    loads: [u64; 3],
    refusals: [u64; 5],
    damages: [u64; 10],
}

/// An event that is taken and changes the record, that is taken and does not, one that is refused; a change in octets alone that are not in use.
fn changes(ask: &Ask, got: &Got) -> [bool; 4] {
    if ask.call != EVENT || !valid(&ask.record) {
        return [false; 4];
    }
    let (taken, changed) = (got.answer == 0, got.notice.changed == 1);
    let held = second::changed(&second::tidy(&ask.record), &second::tidy(&got.record));
    [taken && changed, taken && !changed, !taken, changed && !held]
}

/// A save into a buffer that is just as long, and into a longer one. Refused for one reason: the record, the buffer, by one octet, with none. Last, 1 where 12 is a reason too.
fn saves(ask: &Ask, got: &Got) -> [bool; 7] {
    if ask.call != SAVE {
        return [false; 7];
    }
    let (len, right) = (ask.arrays[0].len(), valid(&ask.record));
    let (taken, short) = (got.answer == 0, got.answer == SHORT);
    [
        taken && len == LENGTH,
        taken && len > LENGTH,
        !right && len >= LENGTH,
        right && short,
        short && len == LENGTH - 1,
        short && len == 0,
        got.answer == RANGE && len < LENGTH,
    ]
}

/// What octets say of themselves: whether the mark is right, the version, the length, and whether the checksum holds where that length has it.
struct Front {
    mark: bool,
    version: u16,
    len: usize,
    sum: bool,
}

fn front(octets: &[u8]) -> Option<Front> {
    let [a, b, c, d, v0, v1, l0, l1] = *octets.first_chunk()?;
    let len = u16::from_le_bytes([l0, l1]) as usize;
    let end = octets.get(..len).and_then(|image| image.split_last_chunk());
    let sum = end.is_some_and(|(covered, sum)| checksum(covered) == u32::from_le_bytes(*sum));
    Some(Front { mark: &[a, b, c, d] == b"TJRF", version: u16::from_le_bytes([v0, v1]), len, sum })
}

/// A load of an image and nothing else, of one with octets behind it; of a record with other numbers than the one that is lent.
fn loads(ask: &Ask, got: &Got) -> [bool; 3] {
    let (taken, len) = (ask.call == LOAD && got.answer == 0, ask.arrays[0].len());
    [taken && len == LENGTH, taken && len > LENGTH, taken && second::changed(&ask.record, &got.record)]
}

/// A load that is 1; one that is 23, of this version's length, of a shorter one, of a longer one, of the shortest.
fn refusals(ask: &Ask, got: &Got) -> [bool; 5] {
    let Some(front) = front(&ask.arrays[0]).filter(|_| ask.call == LOAD) else { return [false; 5] };
    let other = got.answer == VERSION;
    [got.answer == RANGE, other && front.len == LENGTH, other && front.len < LENGTH, other && front.len > LENGTH, other && front.len == 12]
}

/// A load that is 24: of no octets, of fewer than a front has; for one reason: cut, by one octet, the mark, the checksum, a shorter length, a longer one, one below twelve. Last, where
/// the record is invalid too.
fn damages(ask: &Ask, got: &Got) -> [bool; 10] {
    let (octets, damaged) = (&ask.arrays[0], ask.call == LOAD && got.answer == DAMAGED);
    let Some(Front { mark, version, len, sum }) = front(octets).filter(|_| damaged) else {
        return [damaged && octets.is_empty(), damaged && !octets.is_empty(), false, false, false, false, false, false, false, false];
    };
    let (own, whole) = (version == 1 && len == LENGTH, mark && sum);
    let cut = own && mark && octets.len() < len;
    let invalid = |octets: &[u8]| second::load(&[octets, &checksum(octets).to_le_bytes()].concat()).err() == Some(RANGE);
    [
        false,
        false,
        cut,
        cut && octets.len() + 1 == len,
        own && sum && !mark,
        own && mark && !cut && !sum,
        whole && version == 1 && 12 <= len && len < LENGTH,
        whole && version == 1 && len > LENGTH,
        whole && len < 12,
        own && mark && !cut && !sum && invalid(&octets[..LENGTH - 4]),
    ]
}

impl Tally {
    pub fn count(&mut self, ask: &Ask, got: &Got) {
        let counts = self.changes.iter_mut().chain(&mut self.saves).chain(&mut self.loads).chain(&mut self.refusals).chain(&mut self.damages);
        let came = [&changes(ask, got)[..], &saves(ask, got), &loads(ask, got), &refusals(ask, got), &damages(ask, got)].concat();
        for (count, came) in counts.zip(came) {
            *count += came as u64;
        }
    }

    pub fn unseen(&self) -> bool {
        [&self.changes[..3], &self.saves, &self.loads, &self.refusals, &self.damages].iter().any(|counts| counts.contains(&0))
    }

    pub fn show(&self) {
        let [changed, same, refused, unused] = self.changes;
        let [just, longer, record, short, one, none, before] = self.saves;
        let [alone, behind, other] = self.loads;
        let [invalid, version, shorter, long, least] = self.refusals;
        let [empty, front, cut, last, mark, sum, less, more, eleven, both] = self.damages;
        println!("fuzz: events that changed the record {changed} times, that were taken and did not {same}, refused {refused}; a change in octets that are not in use {unused} times");
        println!("fuzz: saved into a buffer that just fits {just} times, into a longer one {longer}; refused for the record {record} times, the buffer {short}, by one octet {one}, with none {none}");
        println!("fuzz: 1 before 12 {before} times in a save; loaded {alone} times alone, {behind} with octets behind, {other} times another record than was lent");
        println!("fuzz: loads that were 1 {invalid} times; 23 {version} times of this length, {shorter} of a shorter one, {least} of the shortest, {long} of a longer one");
        println!("fuzz: loads that were 24 of no octets {empty} times, of less than a front {front}, cut {cut}, by one octet {last}; for the mark {mark} times, the checksum {sum}");
        println!("fuzz: 24 for a shorter length {less} times, a longer one {more}, one below twelve {eleven}; and the record invalid too {both} times");
    }
}
