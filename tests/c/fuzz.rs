// Random octets through the C interface: as a record, as a kind and a body, and as changes to a record that lives on random events.
// Held: the header's layout, answer 1 exactly where the record is invalid by a second reading of document 01, a refusal's record unchanged, nothing written outside what is lent,
// for a valid record the answer, the notice, the record and the request of the second program, which reads that request back as the record's, by its container where it is to have one,
// also with what a device brings from 4G, its choice among the cells heard, its file of forbidden networks, the fault of a message by a reading of R-1 alone, for the event and
// for the reject reader, the deadlines that a notice gives, the timer that is due, what runs out in an asking round, and how long firmware may sleep; that a notice tells whether
// any field of the record is another, and the image of a record octet by octet, what it loads back to and why not.
//
// Usage: fuzz SECONDS SEED PROGRAM [ARGUMENTS]
// The program is tests/c/lend.c. First it tells how many octets a record, a notice, the facts of 4G, a length, a serial and a table of deadlines have without their gaps, and the
// header's longest request, most cells, longest list, longest attach message and longest request with one, the numbers of a timer that ran out, how many of these there are at most, no
// slot's number, the longest wait, and an image's length.
// A call goes to it as one octet each for the call (0 to have the answers so far), what fills the gaps and six small numbers (three limits, the access, or how many numbers of the
// second array are not lent), then the kind, the clock's time or the serial to be saved and the lengths of two arrays, then the record, the notice, the facts, the length, the serial,
// the table and the arrays; back come the answer, how many octets were written before what is lent, and all of these as they then are.
// Numbers have four octets, the low one first, in the two lists of cells and in that of a round too.
// Cases are numbered from SEED on, and each draws by its number alone. With 0 seconds the case SEED runs alone.
#![allow(dead_code)]
#[path = "../../docs/src/card.rs"]
mod card;
#[path = "../../docs/src/cells.rs"]
mod cells;
#[path = "../../docs/src/deadlines.rs"]
mod deadlines;
mod draws;
mod editions;
mod faults;
#[path = "../../docs/src/identity.rs"]
mod identity;
#[path = "../../docs/src/image.rs"]
mod image;
mod images;
#[path = "../../docs/src/log.rs"]
mod log;
#[path = "../../docs/src/message.rs"]
mod message;
#[path = "../../docs/src/record.rs"]
mod record;
#[path = "../../docs/src/request.rs"]
mod request;
mod rounds;
mod second;
mod valid;

use deadlines::Table;
use draws::{Ask, Draw};
use second::{CNotice, CRecord, CTable, Plain, CS1};
use std::io::{self, BufReader, Read, Write};
use std::ops::Range;
use std::panic::{catch_unwind, AssertUnwindSafe};
use std::process::{exit, Child, ChildStdin, ChildStdout, Command, Stdio};
use std::time::{Duration, Instant};
use valid::valid;

pub const NEW: u8 = 1;
pub const EVENT: u8 = 2;
pub const REQUEST: u8 = 3;
pub const CAUSE: u8 = 4;
pub const CELLS: u8 = 5;
pub const FORBIDDEN: u8 = 6;
pub const FROM_S1: u8 = 7;
pub const ARM: u8 = 8;
pub const ASK: u8 = 9;
pub const ROUND: u8 = 10;
pub const WAIT: u8 = 11;
pub const SAVE: u8 = 12;
pub const LOAD: u8 = 13;
/// The kinds of a card, the second R-7's.
pub const CARD: u32 = 1;
pub const EDITION: u32 = 11;
/// The kind of R-8's event.
pub const IMPORT: u32 = 10;
/// A place of the card's file without a network.
pub const UNUSED: u32 = 0xFFFFFF;
/// Answers that no event has: they are for requests, and 12 for cells, files and images.
const NEVER: [u32; 3] = [3, 12, 19];
/// The place of T3346 among an access's timers in the notice.
const T3346: usize = 3;
/// The cause that bars N1, R-14's.
pub const BAR: u8 = 27;
/// The answer of a call where what is lent is too short.
const SHORT: u32 = 268;
/// The longest request without a container and with one.
const LONGEST: [u32; 2] = [80, 193];
/// The same in R-7's mapped case, and the longest attach message.
const MAPPED: [u32; 2] = [65_047, 130_119];
pub const ATTACH: u32 = 65_000;
/// The longest list of forbidden networks.
const LIST: u32 = 48;
/// The longest lap of R-13, in milliseconds, the numbers that a timer has which ran out, and those that a round's list is to have.
pub const LAP: u32 = 2_147_483_647;
const RAN: u32 = 28;
pub const WORDS: u32 = 280;
const LIVES: u64 = 32;
const ROUNDS: usize = 48;

/// What came of a call.
struct Got {
    answer: u32,
    harm: u32,
    record: CRecord,
    notice: CNotice,
    s1: CS1,
    length: u64,
    serial: u32,
    table: CTable,
    arrays: [Vec<u8>; 2],
}

/// The C side, running.
struct Side {
    child: Child,
    input: ChildStdin,
    output: BufReader<ChildStdout>,
}

/// A record that lives on events, and the case's draws.
struct Life {
    case: u64,
    draw: Draw,
    live: CRecord,
}

#[derive(Default)]
struct Tally {
    cases: u64,
    answers: [u64; 21],
    causes: [u64; 7],
    invalid: u64,
    news: u64,
    made: u64,
    requests: u64,
    written: u64,
    deeds: [u64; 5],
    waits: [u64; 6],
    rest: [u64; 10],
    bars: [u64; 8],
    shapes: [[u64; 4]; 2],
    refusals: [u64; 6],
    choices: [u64; 13],
    imports: [u64; 14],
    files: [u64; 11],
    places: [u64; 18],
    ranks: [u64; 4],
    editions: editions::Tally,
    rounds: rounds::Tally,
    images: images::Tally,
}

fn fail(what: &str) -> ! {
    eprintln!("fuzz: {what}");
    exit(1)
}

fn number(from: &mut impl Read) -> io::Result<u32> {
    let mut octets = [0; 4];
    from.read_exact(&mut octets)?;
    Ok(u32::from_le_bytes(octets))
}

fn numbers(octets: &[u8]) -> Vec<u32> {
    octets.chunks_exact(4).map(|n| u32::from_le_bytes([n[0], n[1], n[2], n[3]])).collect()
}

impl Ask {
    fn send(&self, to: &mut Vec<u8>) {
        let [a, b, c] = self.small;
        to.extend([self.call, self.gaps, a, b, c, 0, 0, 0]);
        for n in [self.kind, self.arrays[0].len() as u32, self.arrays[1].len() as u32] {
            to.extend(n.to_le_bytes());
        }
        let (length, serial) = (self.length.to_le_bytes(), self.serial.to_le_bytes());
        for part in [self.record.octets(), self.notice.octets(), self.s1.octets(), &length, &serial, self.table.octets(), &self.arrays[0], &self.arrays[1]] {
            to.extend(part);
        }
    }

    fn told(&self, from: &mut impl Read) -> io::Result<Got> {
        let (answer, harm) = (number(from)?, number(from)?);
        let (Ask { record, notice, s1, table, .. }, arrays, mut length) = (self, self.arrays.clone(), [0; 8]);
        let (record, notice, s1, table) = (*record, *notice, *s1, *table);
        let mut got = Got { answer, harm, record, notice, s1, length: 0, serial: 0, table, arrays };
        from.read_exact(got.record.octets_mut())?;
        from.read_exact(got.notice.octets_mut())?;
        from.read_exact(got.s1.octets_mut())?;
        from.read_exact(&mut length)?;
        got.length = u64::from_le_bytes(length);
        got.serial = number(from)?;
        from.read_exact(got.table.octets_mut())?;
        from.read_exact(&mut got.arrays[0])?;
        from.read_exact(&mut got.arrays[1])?;
        Ok(got)
    }

    /// The cells that a choice is asked among.
    fn cells(&self) -> Vec<u32> {
        numbers(&self.arrays[0])
    }

    /// How many numbers a round's list has.
    fn words(&self) -> u32 {
        self.arrays[1].len() as u32 / 4 - self.small[0] as u32
    }

    fn name(&self) -> String {
        let hex = |octets: &[u8]| octets.iter().map(|octet| format!("{octet:02X}")).collect::<String>();
        match self.call {
            NEW => format!("new, limits {:?}, capabilities {} and {}", self.small, hex(&self.arrays[0]), hex(&self.arrays[1])),
            CAUSE => format!("the reject reader on {}", hex(&self.arrays[0])),
            EVENT => format!("event of kind {}, body {}", self.kind, hex(&self.arrays[0])),
            CELLS => format!("cells over access {}, heard {:06X?}, list of {}", self.small[0], self.cells(), self.arrays[1].len() / 4),
            FORBIDDEN => format!("the card's file of {}", self.arrays[0].len()),
            FROM_S1 => {
                let (facts, lens) = (self.s1.facts, [0, 1].map(|i| self.arrays[i].len()));
                format!("request from S1 over access {}, facts {facts:?}, attach message of {}, buffer of {}", self.small[0], lens[0], lens[1])
            }
            ARM | ASK | ROUND | WAIT => {
                let (call, Table { slots }) = (["arm", "ask", "round", "wait"][(self.call - ARM) as usize], second::table_in(&self.table));
                format!("{call} at {}, {} numbers lent, table {slots:?}", self.kind, self.words())
            }
            SAVE => format!("save with serial {} into {} octets", self.kind, self.arrays[0].len()),
            LOAD => format!("load of {} octets, {}..", self.arrays[0].len(), hex(&self.arrays[0][..self.arrays[0].len().min(12)])),
            _ => format!("request over access {}, buffer of {}", self.small[0], self.arrays[0].len()),
        }
    }
}

impl Side {
    fn start(words: &[String]) -> Side {
        let started = Command::new(&words[0]).args(&words[1..]).stdin(Stdio::piped()).stdout(Stdio::piped()).spawn();
        let mut child = started.unwrap_or_else(|error| fail(&format!("{}: {error}", words[0])));
        let (input, output) = (child.stdin.take().unwrap(), child.stdout.take().unwrap());
        let mut side = Side { child, input, output: BufReader::with_capacity(65536, output) };
        let octets = size_of::<CRecord>() + size_of::<CNotice>() + size_of::<CS1>() + size_of::<u64>() + size_of::<u32>() + size_of::<CTable>();
        if number(&mut side.output).ok() != Some(octets as u32) {
            fail("the C side does not start, or its record, notice, facts or table have other fields");
        }
        let numbers = [LONGEST[1], cells::MOST as u32, LIST, ATTACH, MAPPED[1], RAN, deadlines::MOST as u32, deadlines::NONE as u32, deadlines::WAIT, image::LENGTH as u32];
        if numbers.map(|_| number(&mut side.output).ok()) != numbers.map(Some) {
            fail("the header has another longest request, list or attach message, other most cells, other numbers of a round, another longest wait, or another length of an image");
        }
        side
    }

    /// Sends the calls while it reads what comes of them, so that neither side waits for the other to read.
    fn batch(&mut self, asks: &[Ask], mut each: impl FnMut(usize, Option<Got>)) {
        let mut octets = vec![];
        asks.iter().for_each(|ask| ask.send(&mut octets));
        octets.extend([0; 20]);
        let Side { input, output, .. } = self;
        std::thread::scope(|scope| {
            // Where the C side has ended, reading tells it.
            scope.spawn(|| input.write_all(&octets).is_ok());
            for (i, ask) in asks.iter().enumerate() {
                each(i, ask.told(output).ok());
            }
        });
    }

    fn end(self) {
        let Side { mut child, input, output } = self;
        drop((input, output));
        if !child.wait().is_ok_and(|status| status.success()) {
            fail("the C side ended badly");
        }
    }
}

fn hold(so: bool, what: &str) -> Result<(), String> {
    if so { Ok(()) } else { Err(what.to_string()) }
}

fn equal(what: &str, got: u32, want: u32) -> Result<(), String> {
    hold(got == want, &format!("{what} is {got}, not {want}"))
}

fn alike(what: &str, got: &[u8], want: &[u8]) -> Result<(), String> {
    match (0..got.len()).find(|&i| got[i] != want[i]) {
        Some(i) => Err(format!("{what} has {:02X}, not {:02X}, at octet {i}", got[i], want[i])),
        None => Ok(()),
    }
}

fn judge_new(ask: &Ask, got: &Got) -> Result<(), String> {
    let (answer, record) = second::opened(&ask.record, ask.small, &ask.arrays[0], &ask.arrays[1]);
    equal("the answer", got.answer, answer)?;
    let what = if answer == 0 { "the new record" } else { "the record under a refused new one" };
    alike(what, got.record.octets(), record.octets())?;
    hold(answer != 0 || valid(&got.record), "the new record is invalid")
}

fn judge_event(ask: &Ask, got: &Got) -> Result<(), String> {
    let (was, now) = (&ask.record, &got.record);
    if valid(was) {
        let (answer, notice, record) = second::event(was, ask.kind, &ask.arrays[0]);
        equal("the answer", got.answer, answer)?;
        hold(got.notice.changed >= notice.changed, "what the record holds is another, and the notice does not say so")?;
        alike("the notice", got.notice.octets(), CNotice { changed: got.notice.changed, ..notice }.octets())?;
        hold(valid(now), "the event made the record invalid")?;
        alike("the record", second::tidy(now).octets(), record.octets())?;
    } else {
        equal("the answer to an invalid record", got.answer, 1)?;
    }
    images::judge_change(ask, got)?;
    hold(got.answer <= 20 && !NEVER.contains(&got.answer), "there is no such answer")?;
    if got.answer != 0 {
        alike("the refused record", now.octets(), was.octets())?;
    }
    if got.answer != 0 && got.answer != 2 {
        let silent = CNotice { offset: got.notice.offset, ..CNotice::zero() };
        alike("the refusal's notice", got.notice.octets(), silent.octets())?;
    }
    if let Some(first) = ask.takes.filter(|_| got.answer == 0) {
        hold({ now.entries[0].nets }[first] == was.access[0].net, "of an import's entries another than the first gave up its place")?;
    }
    judge_fault(ask, got)
}

/// The message that an event hands in: of kind 3 behind one draw, of kind 8 behind two.
fn heard(ask: &Ask) -> Option<&[u8]> {
    match ask.kind {
        3 => ask.arrays[0].get(4..),
        8 => ask.arrays[0].get(6..),
        _ => None,
    }
}

/// A message that came through checks 1 and 6 is answered by its fault, if it has one, and the offset is the fault's; else it is 0.
fn judge_fault(ask: &Ask, got: &Got) -> Result<(), String> {
    let read = heard(ask).filter(|_| ![1, 6].contains(&got.answer));
    let fault = read.and_then(|octets| faults::told(octets, &[0x42, 0x44]));
    let (offset, answer) = (got.notice.offset as usize, got.answer as u8);
    let told = (13..=18).contains(&answer).then_some((offset, answer));
    hold(told == fault, &format!("the fault's offset and number are {told:?}, not {fault:?}"))?;
    hold(told.is_some() || offset == 0, "an answer that is no fault's has an offset")
}

/// Only rejects are read here, so that an accept is of another type.
fn judge_cause(ask: &Ask, got: &Got) -> Result<(), String> {
    let octets = &ask.arrays[0];
    let answer = faults::told(octets, &[0x44]).map_or_else(|| octets[3] as u32, |(_, number)| 256 + number as u32);
    equal("the reject reader's answer", got.answer, answer)?;
    alike("the record, which is not lent,", got.record.octets(), ask.record.octets())
}

fn judge_request(ask: &Ask, got: &Got) -> Result<(), String> {
    let mut want = ask.arrays[0].clone();
    let answer = if valid(&ask.record) { second::write(&ask.record, ask.small[0], &mut want) } else { 257 };
    equal("the request's answer", got.answer, answer)?;
    alike("the buffer", &got.arrays[0], &want)?;
    alike("the record that is only read", got.record.octets(), ask.record.octets())?;
    let read = answer > 255 || second::reads(&ask.record, ask.small[0], &CS1::zero(), &[], &want[..answer as usize]);
    hold(read, "the request does not read back")
}

fn judge_cells(ask: &Ask, got: &Got) -> Result<(), String> {
    let mut want = numbers(&ask.arrays[1]);
    let answer = if valid(&ask.record) { second::permitted(&ask.record, ask.small[0], &ask.cells(), &mut want) } else { 257 };
    equal("the answer for the cells", got.answer, answer)?;
    alike("the list of permitted cells", &got.arrays[1], &want.iter().flat_map(|net| net.to_le_bytes()).collect::<Vec<u8>>())?;
    alike("the record that is only read", got.record.octets(), ask.record.octets())
}

fn judge_file(ask: &Ask, got: &Got) -> Result<(), String> {
    let mut want = ask.arrays[0].clone();
    let answer = if valid(&ask.record) { second::forbidden(&ask.record, &mut want) } else { 257 };
    equal("the answer for the card's file", got.answer, answer)?;
    alike("the card's file", &got.arrays[0], &want)?;
    alike("the record that is only read", got.record.octets(), ask.record.octets())
}

/// What R-5 is about: a mobility update, a periodic one, an update that fell back to state 5, T3512 started, T3512 out.
fn deeds(ask: &Ask, got: &Got) -> [bool; 5] {
    let taken = |kind: u32| ask.call == EVENT && got.answer == 0 && ask.kind == kind;
    let update = |regtype: u8| taken(7) && ask.arrays[0][1] == regtype;
    let heard = taken(3) || taken(8);
    let fell = |i: usize| {
        let (was, now) = (ask.record.access[i], got.record.access[i]);
        (was.state, was.regtype > 1, now.state, now.status) == (4, true, 5, 2) && got.notice.clocks[i][T3346][0] == 0
    };
    let started = heard && got.notice.t3512[0] == 2;
    [update(2), update(3), (heard || taken(4)) && (fell(0) || fell(1)), started, taken(4) && ask.arrays[0][0] == 5]
}

/// What R-6 is about, T3346 started: for the time given, for the draw that kind 3 stands for, for a draw at its low end, at its high end; in an update; where it ran.
fn waits(ask: &Ask, got: &Got) -> [bool; 6] {
    let [access, protected, ..] = ask.arrays[0][..] else { return [false; 6] };
    let at = access as usize % 2;
    let ([told, seconds], was) = (got.notice.clocks[at][T3346], ask.record.access[at]);
    let started = ask.call == EVENT && got.answer == 0 && told == 2;
    let drawn = |kind: u32, draw: u32| started && protected == 0 && (ask.kind, seconds) == (kind, draw);
    [started && protected == 1, drawn(3, 900), drawn(8, 900), drawn(8, 1800), started && was.regtype > 1, started && was.t3346 == 1]
}

/// Whether T3346 alone makes the record invalid.
fn odd(r: &CRecord) -> bool {
    let mut mended = *r;
    mended.access.iter_mut().for_each(|a| a.t3346 = 0);
    r.access.iter().any(|a| a.t3346 > 1) && valid(&mended)
}

/// What else R-6 is about: cause 22 taken with T3346 empty, deactivated and zero; a second draw refused below its range and above it; a bad record;
/// 20 for a start and for an update; T3346 out, and stopped by a power cycle.
fn rest(ask: &Ask, got: &Got) -> [bool; 10] {
    let body = &ask.arrays[0];
    let answered = |kind: u32, answer: u32| ask.call == EVENT && (ask.kind, got.answer) == (kind, answer);
    let rejected = heard(ask).filter(|_| answered(3, 0) || answered(8, 0)).and_then(|octets| octets.strip_prefix(&[0x7E, 0x00, 0x44, 22, 0x5F]));
    let time = |right: fn(u8) -> bool| matches!(rejected, Some([1..=255, octet, ..]) if right(*octet));
    let second = |draw: u16| matches!(body[..], [0 | 1, 0 | 1, 0x08, 0x07, low, high, ..] if [low, high] == draw.to_le_bytes());
    let drawn = |draw: u16| answered(8, 1) && second(draw) && valid(&ask.record);
    let stopped = |i: usize| got.notice.clocks[i][T3346][0] == 1;
    [
        matches!(rejected, Some([0, ..])),
        time(|octet| octet >= 0xE0),
        time(|octet| octet < 0xE0 && octet & 31 == 0),
        drawn(899),
        drawn(1801),
        ask.call == EVENT && odd(&ask.record),
        answered(2, 20),
        answered(7, 20),
        answered(4, 0) && body[0] == 6,
        answered(5, 0) && (stopped(0) || stopped(1)),
    ]
}

/// The entry of a network on an access.
fn place(r: &CRecord, at: usize, net: u32) -> Option<usize> {
    let nets = r.entries[at].nets;
    nets[..r.access[at].entries as usize].iter().position(|held| *held == net)
}

/// What R-14 is about. A protected 27 raised the other access's N1 counter: from access 0, from access 1, in an update, under an N1 mark. That side was skipped:
/// for lack of an entry, with all sixteen held. Its counter below the limit was left: by a protected 27 that was answer 4, by one without protection.
fn bars(ask: &Ask, got: &Got) -> [bool; 8] {
    let reject = heard(ask).filter(|octets| octets.starts_with(&[0x7E, 0x00, 0x44, BAR]) && [0, 4].contains(&got.answer));
    let (Some(_), [access, protected, ..]) = (reject, &ask.arrays[0][..]) else { return [false; 8] };
    let (at, sure, taken) = (*access as usize, *protected == 1, got.answer == 0);
    let (this, other) = (ask.record.access[at], ask.record.access[1 - at]);
    let (was, now) = (ask.record.entries[1 - at], got.record.entries[1 - at]);
    let place = place(&ask.record, 1 - at, this.net);
    let raised = place.is_some_and(|i| was.n1s[i] < now.n1s[i]);
    let left = place.is_some_and(|i| was.n1s[i] < ask.record.dev.limits[2]) && !raised;
    let skipped = taken && sure && place.is_none();
    [
        raised && at == 0,
        raised && at == 1,
        raised && this.regtype > 1,
        raised && place.is_some_and(|i| was.barred[i] == 1),
        skipped,
        skipped && other.entries == 16,
        left && sure && !taken,
        left && !sure && taken,
    ]
}

/// The cause of a reject that is handed in, the access and whether it is protected.
fn rejected(ask: &Ask) -> Option<(u8, usize, bool)> {
    let (Some([0x7E, 0x00, 0x44, cause, ..]), [access @ (0 | 1), protected, ..]) = (heard(ask).filter(|_| ask.call == EVENT), &ask.arrays[0][..]) else { return None };
    Some((*cause, *access as usize, *protected == 1))
}

/// What R-9 is about. A place given up: over access 0 by 11 or 73 and by 27, over access 1 by 11 or 73, by 27 and by 72; to a protected reject, in an update; by the first of
/// what one import marked; with a counter at its limit; by another than the first without a mark; behind a marked one that is older; while the other access has an entry of
/// that network. 4 as all have a mark: over access 0, over access 1. Marked again, and last from then on: while marked, with no mark. An import that is 4 beside an entry
/// without a mark, and one whose file names entries in another order than theirs.
fn places(ask: &Ask, got: &Got) -> [bool; 18] {
    let mut came = [false; 18];
    if ask.call != EVENT || !valid(&ask.record) {
        return came;
    }
    if ask.kind == IMPORT {
        let (e, count) = (ask.record.entries[0], ask.record.access[0].entries as usize);
        let seats: Vec<usize> = named(&ask.arrays[0]).iter().filter_map(|net| place(&got.record, 0, *net)).collect();
        came[16] = got.answer == 4 && (0..count).any(|i| e.forbidden[i] + e.barred[i] == 0);
        came[17] = got.answer == 0 && !seats.is_sorted() && seats.iter().any(|i| *i < count);
    }
    let Some((cause, at, sure)) = rejected(ask) else { return came };
    let (was, now, e) = (ask.record.access[at], got.record.access[at], ask.record.entries[at]);
    let (before, after, other) = (place(&ask.record, at, was.net), place(&got.record, at, was.net), place(&ask.record, 1 - at, was.net));
    let clean = |i: usize| e.forbidden[i] + e.barred[i] == 0;
    let limits = ask.record.dev.limits;
    match (got.answer, before, after) {
        (0, None, Some(i)) if was.entries == 16 => {
            let ban = cause == 11 || cause == 73;
            came[..5].copy_from_slice(&[at == 0 && ban, at == 0 && cause == BAR, at == 1 && ban, at == 1 && cause == BAR, at == 1 && cause == 72]);
            (came[5], came[6], came[7]) = (sure, was.regtype > 1, ask.takes == Some(i));
            came[8] = e.bans[i] == limits[1] || e.n1s[i] == limits[2];
            came[9] = (0..i).any(clean);
            came[10] = (0..16).any(|j| !clean(j) && e.ranks[j] < e.ranks[i]);
            came[11] = other.is_some();
        }
        (4, ..) => (came[12], came[13]) = (at == 0, at == 1),
        (0, Some(i), _) if got.record.entries[at].ranks[i] + 1 == now.entries && [11, 73, BAR, 72].contains(&cause) => {
            (came[14], came[15]) = (!clean(i) && e.ranks[i] + 1 < was.entries, clean(i) && e.ranks[i] + 1 < was.entries);
        }
        _ => {}
    }
    came
}

/// What makes a record bad by R-9's ranks alone, of an event that is refused for it: one at the count, one above it, one that stands twice. Last, an octet behind those in use
/// that is none of theirs, of an event that is taken.
fn ranks(ask: &Ask, got: &Got) -> [bool; 4] {
    let mut mended = ask.record;
    mended.entries.iter_mut().for_each(|e| e.ranks = std::array::from_fn(|i| i as u8));
    if ask.call != EVENT || !valid(&mended) {
        return [false; 4];
    }
    let bad = !valid(&ask.record) && got.answer == 1;
    let some = |right: &dyn Fn(u8, &[u8], &[u8]) -> bool| {
        ask.record.access.iter().zip(&ask.record.entries).any(|(a, e)| {
            let (held, behind) = e.ranks.split_at(a.entries as usize);
            right(a.entries, held, behind)
        })
    };
    let twice = |count: u8, held: &[u8]| held.iter().all(|rank| *rank < count) && (1..held.len()).any(|i| held[..i].contains(&held[i]));
    [
        bad && some(&|count, held, _| held.contains(&count)),
        bad && some(&|count, held, _| held.iter().any(|rank| *rank > count)),
        bad && some(&|count, held, _| twice(count, held)),
        got.answer == 0 && some(&|count, _, behind| behind.iter().any(|rank| *rank > count)),
    ]
}

/// What R-3 is about, of a request without a container and of one with it: written, written into a buffer that just fits, written at its longest, refused for one octet.
fn shapes(ask: &Ask, got: &Got) -> [[bool; 4]; 2] {
    if ask.call != REQUEST || got.answer > 255 && got.answer != SHORT {
        return [[false; 4]; 2];
    }
    let access = ask.small[0];
    let shape = (ask.record.access[access as usize].ksi < 7) as usize;
    let (len, whole) = (ask.arrays[0].len() as u32, second::write(&ask.record, access, &mut [0; request::LONGEST]));
    let came = [len >= whole, len == whole, len >= whole && whole == LONGEST[shape], len + 1 == whole];
    [0, 1].map(|each| came.map(|came| came && each == shape))
}

/// What R-2 refuses, each for one reason alone: the access, more than 64 heard, a number above 24 bits, an invalid record, the second list's length. Last, 1 where 12 is a reason too.
fn refusals(ask: &Ask) -> [bool; 6] {
    if ask.call != CELLS {
        return [false; 6];
    }
    let heard = ask.cells();
    let short = ask.arrays[1].len() < ask.arrays[0].len();
    let why = [ask.small[0] > 1, heard.len() > cells::MOST, heard.iter().any(|net| net >> 24 > 0), !valid(&ask.record), short];
    let alone = why.iter().filter(|why| **why).count() == 1;
    let [access, many, wide, invalid, short] = why;
    [access && alone, many && alone, wide && alone, invalid && alone, short && alone, short && !alone]
}

/// The two marks of a network on an access; none without an entry.
fn marks(r: &CRecord, at: usize, net: u32) -> [u8; 2] {
    place(r, at, net).map_or([0; 2], |i| [r.entries[at].forbidden[i], r.entries[at].barred[i]])
}

/// What R-2 is about where it is taken. A network left out: forbidden, N1 not allowed, both, heard before, marked and heard before. One permitted: its entry has no mark,
/// its marks stand on the other access, or at a place not in use. A rest that stays, a list just as long that is filled whole, 64 heard, all 64 permitted, none heard.
fn choices(ask: &Ask, got: &Got) -> [bool; 13] {
    if ask.call != CELLS || got.answer > 255 {
        return [false; 13];
    }
    let (r, at, heard, count) = (&ask.record, ask.small[0] as usize, ask.cells(), got.answer as usize);
    let (len, room, e) = (heard.len(), ask.arrays[1].len() / 4, r.entries[at]);
    let unused = |net: u32| (r.access[at].entries as usize..16).any(|i| { e.nets }[i] == net && e.forbidden[i] + e.barred[i] > 0);
    let left = |right: [u8; 2]| heard.iter().any(|net| marks(r, at, *net) == right);
    let again = |marked: bool| (0..len).any(|i| heard[..i].contains(&heard[i]) && (marks(r, at, heard[i]) != [0; 2]) == marked);
    let passed = |right: &dyn Fn(u32) -> bool| heard.iter().any(|net| marks(r, at, *net) == [0; 2] && right(*net));
    [
        left([1, 0]),
        left([0, 1]),
        left([1, 1]),
        again(false),
        again(true),
        passed(&|net| place(r, at, net).is_some()),
        passed(&|net| marks(r, 1 - at, net) != [0; 2]),
        passed(&unused),
        0 < count && count < room,
        0 < count && count == len && len == room,
        len == cells::MOST,
        count == cells::MOST,
        len == 0,
    ]
}

/// The networks that the card's file names, doubles too.
fn named(file: &[u8]) -> Vec<u32> {
    file.chunks_exact(3).map(|code| u32::from_be_bytes([0, code[0], code[1], code[2]])).filter(|net| *net != UNUSED).collect()
}

/// What R-8 is about where an import is read: new networks, one of them twice, an unused place before one, a mark set where the counter was above 0, no network at all;
/// a table just filled, all of a full one known; with no card, in state 4, in state 5. Refused: for its length alone, for a code alone, 4 for one network, 1 where 4 is a reason too.
fn imports(ask: &Ask, got: &Got) -> [bool; 14] {
    if (ask.call, ask.kind) != (EVENT, IMPORT) || !valid(&ask.record) {
        return [false; 14];
    }
    let (r, body, e, now) = (&ask.record, &ask.arrays[0], ask.record.entries[0], got.record.entries[0]);
    let (nets, held, taken) = (named(body), r.access[0].entries as usize, got.answer == 0);
    let fresh: Vec<u32> = nets.iter().copied().filter(|net| place(r, 0, *net).is_none()).collect();
    let count = (0..fresh.len()).filter(|&i| !fresh[..i].contains(&fresh[i])).count();
    let (part, many, code) = (body.len() % 3 > 0, count > 16 - held, nets.iter().any(|net| !valid::network(*net)));
    let first = body.chunks_exact(3).position(|code| code == [0xFF; 3]);
    [
        taken && count > 0,
        taken && count < fresh.len(),
        taken && first.is_some_and(|i| !named(&body[3 * i..]).is_empty()),
        taken && (0..held).any(|i| e.bans[i] > 0 && e.forbidden[i] < now.forbidden[i]),
        taken && nets.is_empty(),
        taken && count > 0 && held + count == 16,
        taken && held == 16 && !nets.is_empty(),
        taken && r.dev.card == 0,
        taken && r.access[0].state == 4,
        taken && r.access[0].state == 5,
        part && !code && !many,
        code && !part && !many,
        got.answer == 4 && held + count == 17,
        got.answer == 1 && many,
    ]
}

/// What R-8 is about where the card's file is written: no network, some that fill it, some and FF behind them, sixteen, a file of no length, a network that T3247 would lift.
/// Refused: for its length alone, for the record alone, shorter by one network, of no length, 1 where 12 is a reason too.
fn files(ask: &Ask, got: &Got) -> [bool; 11] {
    if ask.call != FORBIDDEN {
        return [false; 11];
    }
    let (e, len) = (ask.record.entries[0], ask.arrays[0].len());
    let marked: Vec<usize> = (0..ask.record.access[0].entries.min(16) as usize).filter(|&i| e.forbidden[i] == 1).collect();
    let (list, taken, right, part) = (3 * marked.len(), got.answer < 256, valid(&ask.record), len % 3 > 0);
    [
        taken && list == 0,
        taken && 0 < list && list == len,
        taken && 0 < list && list < len,
        taken && list == LIST as usize,
        taken && len == 0,
        taken && marked.iter().any(|&i| 0 < e.bans[i] && e.bans[i] < ask.record.dev.limits[1]),
        part && right && len >= list,
        !right && !part && len >= list,
        got.answer == SHORT && len + 3 == list,
        got.answer == SHORT && len == 0,
        part && right && len < list,
    ]
}

fn judge(ask: &Ask, got: &Got) -> Result<(), String> {
    equal("the count of octets written before what is lent", got.harm, 0)?;
    if ask.call != EVENT {
        alike("the notice, which is not lent,", got.notice.octets(), ask.notice.octets())?;
    }
    if ![REQUEST, FORBIDDEN, SAVE].contains(&ask.call) {
        alike("the first array", &got.arrays[0], &ask.arrays[0])?;
    }
    if ![CELLS, FROM_S1, ROUND].contains(&ask.call) {
        alike("the second array", &got.arrays[1], &ask.arrays[1])?;
    }
    if ![ARM, ASK, ROUND, WAIT, SAVE, LOAD].contains(&ask.call) {
        alike("the table, which is not lent,", got.table.octets(), ask.table.octets())?;
    }
    alike("what comes from 4G", got.s1.octets(), ask.s1.octets())?;
    hold(ask.call == FROM_S1 || got.length == ask.length, "the length, which is not lent, is another")?;
    hold(ask.call == LOAD || got.serial == ask.serial, "the serial, which is not lent, is another")?;
    match ask.call {
        NEW => judge_new(ask, got),
        EVENT => judge_event(ask, got),
        CAUSE => judge_cause(ask, got),
        CELLS => judge_cells(ask, got),
        FORBIDDEN => judge_file(ask, got),
        FROM_S1 => editions::judge(ask, got),
        ARM => rounds::judge_arm(ask, got),
        ASK => rounds::judge_ask(ask, got),
        ROUND => rounds::judge_round(ask, got),
        WAIT => rounds::judge_wait(ask, got),
        SAVE => images::judge_save(ask, got),
        LOAD => images::judge_load(ask, got),
        _ => judge_request(ask, got),
    }
}

fn count(ask: &Ask, got: &Got, tally: &mut Tally) {
    tally.news += (ask.call == NEW) as u64;
    tally.made += (ask.call == NEW && got.answer == 0) as u64;
    tally.requests += (ask.call == REQUEST) as u64;
    tally.written += (ask.call == REQUEST && got.answer < 256) as u64;
    let counts = tally.deeds.iter_mut().chain(&mut tally.waits).chain(&mut tally.rest).chain(&mut tally.bars).chain(tally.shapes.as_flattened_mut());
    let counts = counts.chain(&mut tally.refusals).chain(&mut tally.choices).chain(&mut tally.imports).chain(&mut tally.files);
    let came = [&deeds(ask, got)[..], &waits(ask, got), &rest(ask, got), &bars(ask, got), shapes(ask, got).as_flattened(), &refusals(ask), &choices(ask, got)].concat();
    let counts = counts.chain(&mut tally.places).chain(&mut tally.ranks);
    let came = came.into_iter().chain(imports(ask, got)).chain(files(ask, got)).chain(places(ask, got)).chain(ranks(ask, got));
    for (count, came) in counts.zip(came) {
        *count += came as u64;
    }
    tally.editions.count(ask, got);
    tally.rounds.count(ask, got);
    tally.images.count(ask, got);
    if ask.call == CAUSE {
        tally.causes[got.answer.saturating_sub(268).min(6) as usize] += 1;
    }
    if ask.call == EVENT {
        tally.answers[got.answer as usize] += 1;
        tally.invalid += !valid(&ask.record) as u64;
    }
}

fn accuse(what: &str, case: u64, round: usize, ask: &Ask) -> ! {
    fail(&format!("{what}\nfuzz: case {case}, round {round}: {}\nfuzz: to see it again: LONG=0 SEED={case} tests/c/run", ask.name()))
}

/// The C side has ended in one of these calls, with answers untold: each alone shows which.
fn search(words: &[String], asks: &[Ask], cases: &[u64], round: usize) -> ! {
    for (ask, &case) in asks.iter().zip(cases) {
        Side::start(words).batch(std::slice::from_ref(ask), |_, got| {
            if got.is_none() {
                accuse("the C side ends in the call", case, round, ask);
            }
        });
    }
    fail(&format!("the C side ended, and not again: LONG=0 SEED={}", cases[0]))
}

/// Some cases side by side, a round of all of them at a time.
fn group(side: &mut Side, words: &[String], cases: Range<u64>, tally: &mut Tally) {
    let mut lives: Vec<Life> = cases.map(|case| Life { case, draw: Draw::new(case), live: CRecord::zero() }).collect();
    for round in 0..ROUNDS {
        let (mut asks, mut owners) = (vec![], vec![]);
        for (at, life) in lives.iter_mut().enumerate() {
            asks.extend(if round == 0 { draws::first(&mut life.draw) } else { draws::round(&mut life.draw, &life.live) });
            owners.resize(asks.len(), at);
        }
        let cases: Vec<u64> = owners.iter().map(|&at| lives[at].case).collect();
        side.batch(&asks, |i, got| {
            let Some(got) = got else { search(words, &asks[i..], &cases[i..], round) };
            let judged = catch_unwind(AssertUnwindSafe(|| judge(&asks[i], &got).map(|()| count(&asks[i], &got, tally))));
            judged.unwrap_or(Err("the second program panics".to_string())).unwrap_or_else(|what| accuse(&what, cases[i], round, &asks[i]));
            if i == 0 || owners[i] != owners[i - 1] {
                lives[owners[i]].live = got.record;
            }
        });
    }
    tally.cases += lives.len() as u64;
}

fn show_cells(refusals: [u64; 6], choices: [u64; 13]) {
    let [access, many, wide, invalid, short, before] = refusals;
    let [forbidden, n1, both, again, marked, clean, other, unused, rest, whole, most, all, none] = choices;
    println!("fuzz: cells refused for one reason: access {access} times, more than 64 {many}, above 24 bits {wide}, record {invalid}, list too short {short}; 1 before 12 {before} times");
    println!("fuzz: cells left out: forbidden {forbidden} times, N1 not allowed {n1}, both {both}, heard before {again}, marked and heard before {marked}");
    println!("fuzz: cells permitted: an entry without marks {clean} times, marked on the other access {other}, marked at a place not in use {unused}");
    println!("fuzz: 64 cells heard {most} times, all permitted {all}, none heard {none}; a list filled whole {whole} times, its rest left {rest}");
}

fn show_card(imports: [u64; 14], files: [u64; 11]) {
    let [new, twice, gap, raised, none, filled, known, bare, pending, registered, part, code, full, before] = imports;
    let [empty, whole, behind, most, nothing, liftable, length, record, short, no, first] = files;
    println!("fuzz: imports of new networks {new} times, one twice {twice}, behind an unused place {gap}, marked again with a counter {raised}, of none {none}");
    println!("fuzz: imports that fill the table {filled} times, of known ones into a full one {known}; without a card {bare}, in state 4 {pending}, in state 5 {registered}");
    println!("fuzz: imports refused for one reason: length {part} times, code {code}, one network too many {full}; 1 before 4 {before} times");
    println!("fuzz: files without a network {empty} times, just filled {whole}, FF behind {behind}, sixteen networks {most}, no length {nothing}, one that T3247 would lift {liftable}");
    println!("fuzz: files refused for one reason: length {length} times, record {record}, shorter by a network {short}, no length {no}; 1 before 12 {first} times");
}

fn show_places(places: [u64; 18], ranks: [u64; 4]) {
    let [ban, bar, ban1, bar1, n1, sure, moved, tied, limit, later, older, other, full, full1, again, anew, held, sorted] = places;
    let [count, above, twice, behind] = ranks;
    println!("fuzz: places given up over access 0 {ban} times by 11 or 73, {bar} by 27; over access 1 {ban1} by 11 or 73, {bar1} by 27, {n1} by 72; {sure} protected, {moved} in an update");
    println!("fuzz: given up by the first of an import's {tied} times, not by the first without a mark {later}, behind an older one with a mark {older}");
    println!("fuzz: given up with a counter at its limit {limit} times, to a network that the other access knows {other}");
    println!("fuzz: 4 as all sixteen have a mark {full} times over access 0, {full1} over access 1; marked again {again} times while marked, {anew} with no mark");
    println!("fuzz: imports that are 4 beside an entry without a mark {held} times, that rank otherwise than their file {sorted}");
    println!("fuzz: records invalid by ranks alone: one at the count {count} times, above it {above}, twice {twice}; any octets behind the ranks in use {behind} times");
}

/// What are about.
fn show_events(deeds: [u64; 5], waits: [u64; 6], rest: [u64; 10], bars: [u64; 8]) {
    let [mobility, periodic, fell, started, out] = deeds;
    let [given, plain, low, high, moved, anew] = waits;
    let [empty, off, zero, below, above, bad, start, update, ended, power] = rest;
    let [mobile, wifi, updating, marked, skipped, full, refused, open] = bars;
    println!("fuzz: {mobility} mobility and {periodic} periodic updates taken, {fell} failed; T3512 started {started} times, out {out} times");
    println!("fuzz: T3346 started {given} times as given, {plain} for kind 3's draw, {low} and {high} for one at its ends; {moved} times in an update, {anew} where it ran");
    println!("fuzz: T3346 empty {empty} times, deactivated {off}, zero {zero}; its draw refused {below} times below its range, {above} above it; {bad} records invalid by it alone");
    println!("fuzz: 20 for {start} starts and {update} updates; T3346 out {ended} times, stopped by {power} power cycles");
    println!("fuzz: a protected 27 raised the other access's N1 counter {mobile} times from access 0 and {wifi} from access 1, {updating} of them in an update, {marked} under an N1 mark");
    println!("fuzz: that side skipped {skipped} times, {full} of them with all sixteen entries held; a counter left there {refused} times by answer 4, {open} by a 27 without protection");
}

fn main() {
    let words: Vec<String> = std::env::args().skip(1).collect();
    let numbers: Vec<u64> = words.iter().take(2).filter_map(|word| word.parse().ok()).collect();
    let [seconds, seed] = numbers[..] else { fail("usage: fuzz SECONDS SEED PROGRAM [ARGUMENTS]") };
    let (began, words, mut tally) = (Instant::now(), &words[2..], Tally::default());
    let mut side = Side::start(words);
    if seconds == 0 {
        group(&mut side, words, seed..seed + 1, &mut tally);
    }
    while began.elapsed() < Duration::from_secs(seconds) {
        let first = seed + tally.cases;
        group(&mut side, words, first..first + LIVES, &mut tally);
    }
    side.end();
    let Tally { cases, answers, causes, invalid, news, made, requests, written, deeds, waits, rest, bars, shapes, refusals, choices, imports, files, places, ranks, editions, rounds, images } = tally;
    println!("fuzz: {cases} cases, {} events, {invalid} of them on an invalid record", answers.iter().sum::<u64>());
    println!("fuzz: {made} of {news} new records made, {written} of {requests} requests written");
    for (shape, [written, fitted, longest, lacked]) in ["no container", "a container"].iter().zip(shapes) {
        println!("fuzz: with {shape} {written} requests written, {fitted} of them into a buffer that just fits and {longest} at their longest, {lacked} refused for one octet");
    }
    show_events(deeds, waits, rest, bars);
    show_cells(refusals, choices);
    show_card(imports, files);
    show_places(places, ranks);
    editions.show();
    rounds.show();
    images.show();
    println!("fuzz: answers 0 to 20 came {answers:?} times, a reject's cause and 269 to 274 {causes:?} times");
    let missing = (0..21).any(|answer| answers[answer] == 0 && !NEVER.contains(&(answer as u32)));
    let seen = [&causes[..], &deeds, &waits, &rest, &bars, shapes.as_flattened(), &refusals, &choices, &imports, &files, &places, &ranks, &[invalid, made, news - made]].concat();
    let unseen = seen.contains(&0) || editions.unseen() || rounds.unseen() || images.unseen();
    if seconds > 0 && (missing || unseen) {
        fail("some answer, deed, shape of a request, choice of cells, import, card's file, place given up, rank, edition, deadline, change or image never came");
    }
}
