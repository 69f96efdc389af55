// Scenarios worked out by hand from document 01 and requests R-1, R-2, R-3, R-5, R-6, R-8, R-9,
// R-12 and R-14, in editions.rs those of R-7, in explain.rs R-11, in deadlines.rs R-13, in limits.rs
// the limits that a log's reader is told, in image.rs what C's firmware saves:
// rustc --test docs/src/main.rs

mod deadlines;
mod editions;
mod explain;
mod image;
mod limits;

use crate::card;
use crate::cells;
use crate::identity::S1;
use crate::log::{apply, Input, Next};
use crate::message::{self, Fault, Message, Reject, Span};
use crate::record::*;
use crate::request;
use std::collections::BTreeMap;
use std::io::{self, Read};
use std::ops::Range;

const HOME: Network = [0x00, 0xF1, 0x10];
const AWAY: Network = [0x00, 0xF2, 0x20];
const SUCI: [u8; 9] = [0x01, 0x00, 0xF1, 0x10, 0xF0, 0xFF, 0x00, 0x00, 0x07];
const GUTI: Guti = [0x00, 0xF1, 0x10, 0x80, 0x01, 0xC5, 0xD1, 0xC2, 0xB3, 0xA4];
const EQUIVALENT: Network = [0x00, 0xF3, 0x30];
const OLD: Area = [9, 9, 9, 9, 9, 9];
const LISTING: [u8; 70] = [
    0x0E, 0x00, 0x01, 0x00, 0x00, 0xF1, 0x10, 0x01, 0x00, 0xF1, 0x10, 0xF0, 0xFF, 0x00, 0x00, 0x07,
    0x0A, 0x00, 0x02, 0x00, 0x00, 0x00, 0x00, 0xF2, 0x20, 0x00, 0x00, 0x2A, 0x0A, 0x00, 0x03, 0x00,
    0x00, 0x00, 0x08, 0x07, 0x7E, 0x00, 0x44, 0x0B, 0x0A, 0x00, 0x02, 0x00, 0x00, 0x00, 0x00, 0xF2,
    0x20, 0x00, 0x00, 0x2A, 0x04, 0x00, 0x04, 0x00, 0x04, 0x00, 0x0A, 0x00, 0x02, 0x00, 0x00, 0x00,
    0x00, 0xF2, 0x20, 0x00, 0x00, 0x2A,
];

/// The events with all that they tell.
trait Replies {
    fn card(&mut self, edition: u8, home: Network, suci: &[u8]) -> Reply;
    fn start(&mut self, access: u8, manual: u8, area: Area) -> Reply;
    fn update(&mut self, access: u8, regtype: u8, area: Area, statuses: [Sessions; 2]) -> Reply;
    fn message(&mut self, access: u8, protected: u8, drawn: Drawn, octets: &[u8]) -> Reply;
    fn timer(&mut self, number: u8, access: u8) -> Reply;
    fn power(&mut self) -> Reply;
    fn key(&mut self, access: u8, set: u8) -> Reply;
    fn import(&mut self, file: &[u8]) -> Reply;
}

impl Replies for Record {
    fn card(&mut self, edition: u8, home: Network, suci: &[u8]) -> Reply {
        Reply::to(|reply| self.on_card(reply, edition, home, suci))
    }

    fn start(&mut self, access: u8, manual: u8, area: Area) -> Reply {
        Reply::to(|reply| self.on_start(reply, access, manual, &area))
    }

    fn update(&mut self, access: u8, regtype: u8, area: Area, statuses: [Sessions; 2]) -> Reply {
        Reply::to(|reply| self.on_update(reply, access, regtype, &area, statuses))
    }

    fn message(&mut self, access: u8, protected: u8, drawn: Drawn, octets: &[u8]) -> Reply {
        Reply::to(|reply| self.on_message(reply, access, protected, drawn, octets))
    }

    fn timer(&mut self, number: u8, access: u8) -> Reply {
        Reply::to(|reply| self.on_timer(reply, number, access))
    }

    fn power(&mut self) -> Reply {
        Reply::to(|reply| self.on_power(reply))
    }

    fn key(&mut self, access: u8, set: u8) -> Reply {
        Reply::of(self.on_key(access, set))
    }

    fn import(&mut self, file: &[u8]) -> Reply {
        Reply::of(card::on_import(self, file))
    }
}

fn limited(limit: u8) -> Record {
    let limits = Limits { card: limit, ban: limit, n1: limit };
    let mut record = Record::new(limits, &[0x00], &[0xF0, 0xF0]);
    assert_eq!(record.card(1, HOME, &SUCI).answer, 0);
    record
}

fn area(network: Network) -> Area {
    [network[0], network[1], network[2], 0x00, 0x00, 0x2A]
}

fn start(record: &mut Record, a: u8, network: Network) -> u8 {
    record.start(a, 0, area(network)).answer
}

/// What a log has with one draw alone.
fn drawn(t3247: u16) -> Drawn {
    Drawn { t3247, t3346: 900 }
}

fn reject(record: &mut Record, a: u8, protected: u8, cause: u8) -> Reply {
    record.message(a, protected, drawn(1800), &[0x7E, 0x00, 0x44, cause])
}

fn accept(record: &mut Record, a: u8) -> u8 {
    record.message(a, 1, drawn(1800), &[0x7E, 0x00, 0x42, 0x01, 0x01]).answer
}

fn out(record: &mut Record, number: u8, a: u8) -> Reply {
    record.timer(number, a)
}

/// The whole record: what `--full` prints, and the order of each access.
fn text(record: &Record) -> String {
    let mut text = String::new();
    crate::full::record(&mut text, record);
    text + &record.access.map(|access| format!(" {:?}", access.order.places())).concat()
}

/// The next entry of an access, as if it had just been marked.
fn hold(access: &mut Access, entry: Entry) {
    access.order.mark(access.entries.len());
    access.entries.push(entry);
}

/// All entries of an access, as if they had been marked in entry order.
fn table(access: &mut Access, entries: &[Entry]) {
    access.entries.clear();
    access.order = Order::default();
    for &entry in entries {
        hold(access, entry);
    }
}

/// Access `a` in state 4 on `network`, both accesses with all that a reject could clear.
fn pending(a: usize, network: Network) -> Record {
    let mut record = limited(3);
    for access in &mut record.access {
        access.status = 1;
        access.attempts = 2;
        access.t3502_length = 60;
        access.guti = Some(GUTI);
        access.last = Some(OLD);
        access.ksi = 3;
        access.equivalents = List::of(&[EQUIVALENT]);
        access.cards = 1;
    }
    assert_eq!(start(&mut record, a as u8, network), 0);
    record
}

fn marks(areas: &Areas) -> String {
    areas.iter().map(|held| if held.protected { 'p' } else { 'u' }).collect()
}

/// What a row of rejects may change, in short.
fn shown(record: &Record, a: usize) -> String {
    let this = &record.access[a];
    let identity = match (this.guti, this.last, this.ksi) {
        (None, None, 7) => "-",
        (Some(GUTI), Some(OLD), 3) => "+",
        _ => "?",
    };
    let entries: String = this
        .entries
        .iter()
        .map(|entry| {
            assert_eq!(entry.network.octets(), network_of(&this.pending));
            let forbidden = if entry.forbidden { "F" } else { "-" };
            let barred = if entry.n1_barred { "N" } else { "-" };
            format!("{}{}{forbidden}{barred}", entry.ban, entry.n1)
        })
        .collect();
    format!(
        "{} 5U{} a{} {} eq{} c{}{} e[{}] r[{}] g[{}]",
        this.state,
        this.status,
        this.attempts,
        identity,
        this.equivalents.len(),
        record.access[0].cards,
        record.access[1].cards,
        entries,
        marks(&record.roaming),
        marks(&record.regional)
    )
}

/// A taken reject's reply: T3510 stopped, T3247 and one timer of the access started.
fn reply(a: usize, t3247: bool, started: Started) -> Reply {
    let mut reply = Reply::of(0);
    reply.timers[T3510 + a] = Change::Stopped;
    if t3247 {
        reply.timers[T3247] = Change::Started(1800);
    }
    if let Some((timer, seconds)) = started {
        reply.timers[timer + a] = Change::Started(seconds);
    }
    reply
}

type Started = Option<(usize, u32)>;
type Case = (&'static [u8], usize, u8, Network, &'static str, bool, Started);

const FAILED: &str = "3 5U1 a3 + eq1 c11 e[] r[] g[]";
const FIVE: &[u8] = &[95, 96, 97, 99, 111];
const OTHERS: &[u8] = &[0, 5, 9, 10, 22, 62, 98, 110, 255];
const LATER: Started = Some((T3502, 60));
const RETRY: Started = Some((T3511, 10));

/// Each row of the table: causes, access, protected, network, what `shown` tells after it,
/// whether T3247 starts and which other timer does.
const ROWS: &[Case] = &[
    (&[3, 6, 7], 0, 0, AWAY, "2 5U3 a0 - eq0 c21 e[] r[u] g[]", true, None),
    (&[3, 6, 7], 0, 0, HOME, "2 5U3 a0 - eq0 c21 e[] r[u] g[]", true, None),
    (&[3, 6, 7], 1, 0, AWAY, "2 5U3 a2 - eq1 c12 e[] r[] g[]", true, None),
    (&[3, 6, 7], 0, 1, AWAY, "0 5U3 a2 - eq0 c33 e[] r[] g[]", false, None),
    (&[3, 6, 7], 1, 1, HOME, "0 5U3 a2 - eq0 c33 e[] r[] g[]", false, None),
    (&[11, 73], 0, 0, AWAY, "6 5U3 a0 - eq0 c11 e[10F-] r[] g[]", true, None),
    (&[11, 73], 1, 0, AWAY, "2 5U3 a0 - eq0 c11 e[10F-] r[] g[]", true, None),
    (&[11, 73], 0, 1, AWAY, "6 5U3 a0 - eq0 c11 e[30F-] r[] g[]", false, None),
    (&[11, 73], 1, 1, AWAY, "2 5U3 a0 - eq0 c11 e[30F-] r[] g[]", false, None),
    (&[11, 73], 0, 0, HOME, "2 5U3 a0 - eq0 c11 e[] r[u] g[]", true, None),
    (&[11, 73], 1, 0, HOME, "2 5U3 a0 - eq0 c11 e[] r[] g[]", true, None),
    (&[11, 73], 0, 1, HOME, FAILED, false, RETRY),
    (&[11, 73], 1, 1, HOME, FAILED, false, RETRY),
    (&[12], 0, 0, AWAY, "2 5U3 a0 - eq1 c11 e[] r[] g[u]", true, None),
    (&[12], 0, 1, HOME, "2 5U3 a0 - eq1 c11 e[] r[] g[p]", false, None),
    (&[13], 0, 0, AWAY, "2 5U3 a0 - eq0 c11 e[] r[u] g[]", true, None),
    (&[13], 0, 1, HOME, "2 5U3 a0 - eq0 c11 e[] r[p] g[]", false, None),
    (&[15], 0, 0, HOME, "2 5U3 a0 - eq1 c11 e[] r[u] g[]", true, None),
    (&[15], 0, 1, AWAY, "2 5U3 a0 - eq1 c11 e[] r[p] g[]", false, None),
    (&[12, 13, 15], 1, 0, AWAY, FAILED, true, RETRY),
    (&[12, 13, 15], 1, 1, HOME, FAILED, false, RETRY),
    (&[27], 0, 0, AWAY, "2 5U3 a0 - eq1 c11 e[01-N] r[] g[]", true, None),
    (&[27], 0, 1, HOME, "2 5U3 a0 - eq1 c11 e[03-N] r[] g[]", false, None),
    (&[27, 72], 1, 0, HOME, "2 5U3 a0 - eq1 c11 e[01-N] r[] g[]", true, None),
    (&[27, 72], 1, 1, AWAY, "2 5U3 a0 - eq1 c11 e[03-N] r[] g[]", false, None),
    (&[72], 0, 0, AWAY, FAILED, true, RETRY),
    (&[72], 0, 1, HOME, FAILED, false, RETRY),
    (FIVE, 0, 0, AWAY, "3 5U2 a5 - eq0 c11 e[] r[] g[]", false, LATER),
    (FIVE, 1, 1, HOME, "3 5U2 a5 - eq0 c11 e[] r[] g[]", false, LATER),
    (OTHERS, 0, 0, AWAY, FAILED, false, RETRY),
    (OTHERS, 1, 1, HOME, FAILED, false, RETRY),
];

#[test]
fn rows_of_rejects() {
    for &(causes, a, protected, network, after, t3247, started) in ROWS {
        for &cause in causes {
            let mut record = pending(a, network);
            let before = record.access[1 - a];
            let got = reject(&mut record, a as u8, protected, cause);
            let what = format!("cause {cause} access {a} protected {protected} {network:?}");
            assert_eq!(shown(&record, a), after, "{what}");
            assert_eq!(got, reply(a, t3247, started), "{what}");
            assert_eq!(record.t3247, t3247, "{what}");
            assert_eq!(record.access[a].t3502_length, 60);
            assert_eq!(record.access[a].pending, area(network));
            let mut other = record;
            other.access[1 - a].cards = before.cards;
            let mut same = record;
            same.access[1 - a] = before;
            assert_eq!(text(&other), text(&same), "{what}");
            valid(&record);
        }
    }
}

#[test]
fn every_other_cause_fails() {
    let named = [3, 6, 7, 11, 12, 13, 15, 27, 72, 73, 95, 96, 97, 99, 111];
    for cause in (0..=255).filter(|cause| !named.contains(cause)) {
        for a in 0..2 {
            let mut record = pending(a, AWAY);
            assert_eq!(reject(&mut record, a as u8, 0, cause), reply(a, false, RETRY));
            assert_eq!(shown(&record, a), FAILED);
        }
    }
}

/// A network that differs from home in one octet alone is away, and has its own marks.
#[test]
fn one_octet_makes_another_network() {
    for near in [[0x10, 0xF1, 0x10], [0x00, 0x11, 0x10], [0x00, 0xF1, 0x11]] {
        let mut record = pending(0, near);
        assert_eq!(start(&mut record, 1, HOME), 0);
        assert_eq!(out(&mut record, 1, 1).answer, 0);
        assert_eq!(reject(&mut record, 0, 0, 11), reply(0, true, None));
        assert_eq!(shown(&record, 0), "6 5U3 a0 - eq0 c11 e[10F-] r[] g[]");
        assert_eq!(start(&mut record, 0, near), 8);
        assert_eq!(start(&mut record, 0, HOME), 0);
    }
}

#[test]
fn card_row_at_the_limit() {
    for a in 0..2 {
        let mut record = pending(a, AWAY);
        record.access[a].cards = 3;
        assert_eq!(reject(&mut record, a as u8, 0, 6), reply(a, true, None));
        let cards = if a == 0 { "c31" } else { "c13" };
        assert_eq!(shown(&record, a), format!("0 5U3 a2 - eq0 {cards} e[] r[] g[]"));
        assert_eq!(start(&mut record, a as u8, AWAY), 5);
        assert_eq!(record.power().answer, 0);
        assert_eq!(start(&mut record, a as u8, AWAY), 0);
    }
}

#[test]
fn third_card_reject_is_below_and_fourth_at_the_limit() {
    let mut record = limited(3);
    for count in 1..=3 {
        assert_eq!(start(&mut record, 1, AWAY), 0);
        assert_eq!(reject(&mut record, 1, 0, 3).answer, 0);
        assert_eq!((record.access[1].state, record.access[1].cards), (2, count));
    }
    assert_eq!(start(&mut record, 1, AWAY), 0);
    assert_eq!(reject(&mut record, 1, 0, 3).answer, 0);
    assert_eq!((record.access[1].state, record.access[1].cards), (0, 3));
    assert_eq!(record.access[0].cards, 0);
}

#[test]
fn a_running_t3247_keeps_its_time() {
    let mut record = pending(0, AWAY);
    record.t3247 = true;
    assert_eq!(reject(&mut record, 0, 0, 11), reply(0, false, None));
    assert!(record.t3247);
}

/// Fact 1: the listing.
#[test]
fn listing() {
    let lines = ["0 1 1 0", "0 4 1 0", "0 6 1 1", "8 6 1 1", "0 6 1 0", "0 4 1 0"];
    let mut record = Record::new(Limits { card: 3, ban: 3, n1: 3 }, &[0], &[0xF0, 0xF0]);
    let mut input = Input::new(&LISTING[..]);
    for line in lines {
        let Ok(Next::Record(octets)) = input.next() else { panic!("a record") };
        let answer = apply(&mut record, octets).answer;
        let states = (record.access[0].state, record.access[1].state);
        assert_eq!(format!("{answer} {} {} {}", states.0, states.1, record.t3247 as u8), line);
    }
    assert!(matches!(input.next(), Ok(Next::End)));
}

/// `count` taken rejects with cause 11 on access 0, by manual starts.
fn banned(limit: u8, count: usize, protected: u8) -> Record {
    let mut record = limited(limit);
    for _ in 0..count {
        assert_eq!(record.start(0, 1, area(AWAY)).answer, 0);
        assert_eq!(reject(&mut record, 0, protected, 11).answer, 0);
    }
    record
}

fn ban(record: &Record) -> (u8, bool) {
    let entry = record.access[0].entry(&AWAY).expect("an entry");
    (entry.ban, entry.forbidden)
}

/// Facts 2 to 6: what T3247 lifts.
#[test]
fn bans() {
    for (limit, count, counter, stays) in
        [(3, 3, 3, true), (3, 2, 2, false), (1, 1, 1, true), (3, 4, 3, true)]
    {
        let mut record = banned(limit, count, 0);
        assert_eq!(ban(&record), (counter, true));
        assert_eq!(out(&mut record, 4, 0).answer, 0);
        assert_eq!(ban(&record), (counter, stays));
        assert_eq!(start(&mut record, 0, AWAY), if stays { 8 } else { 0 });
    }
    let mut record = banned(3, 1, 1);
    assert_eq!(ban(&record), (3, true));
    assert_eq!(out(&mut record, 4, 0).answer, 11);
    record.power();
    assert_eq!(ban(&record), (3, true));
}

/// Limits 2, 3 and 4, and a card.
fn apart() -> Record {
    let mut record = Record::new(Limits { card: 2, ban: 3, n1: 4 }, &[0x00], &[0xF0, 0xF0]);
    assert_eq!(record.card(1, HOME, &SUCI).answer, 0);
    record
}

/// Each network counter goes to its own limit, and T3247 and a power cycle lift below that one.
#[test]
fn network_counters_have_their_own_limits() {
    for (a, cause, limit) in [(0, 11, 3), (1, 73, 3), (0, 27, 4), (1, 27, 4), (1, 72, 4)] {
        let mut record = apart();
        for count in 1..=limit + 1 {
            assert_eq!(record.start(a, 1, area(AWAY)).answer, 0);
            assert_eq!(reject(&mut record, a, 0, cause).answer, 0);
            let mut later = record;
            assert_eq!(out(&mut later, 4, 0).answer, 0);
            assert_eq!(record.power().answer, 0);
            let marked = |record: &Record| {
                let entry = record.access[a as usize].entries[0];
                assert_eq!(entry.ban + entry.n1, limit.min(count), "cause {cause} access {a}");
                (entry.forbidden, entry.n1_barred)
            };
            let (stays, ban) = (count >= limit, limit == 3);
            assert_eq!(marked(&later), (ban && stays, !ban && stays), "cause {cause} access {a}");
            assert_eq!(marked(&record), (ban && stays, false), "cause {cause} access {a}");
        }
        let mut record = apart();
        assert_eq!(start(&mut record, a, AWAY), 0);
        assert_eq!(reject(&mut record, a, 1, cause).answer, 0);
        let entry = record.access[a as usize].entries[0];
        assert_eq!(entry.ban + entry.n1, limit, "cause {cause} access {a}");
    }
}

#[test]
fn card_counters_have_their_own_limit() {
    for a in 0..2 {
        let mut record = apart();
        for (count, state) in [(1, 2), (2, 2), (2, 0)] {
            assert_eq!(record.power().answer, 0);
            assert_eq!(start(&mut record, a as u8, AWAY), 0);
            assert_eq!(reject(&mut record, a as u8, 0, 3).answer, 0);
            assert_eq!((record.access[a].cards, record.access[a].state), (count, state));
        }
        let mut record = apart();
        assert_eq!(start(&mut record, a as u8, AWAY), 0);
        assert_eq!(reject(&mut record, a as u8, 1, 3).answer, 0);
        assert_eq!((record.access[0].cards, record.access[1].cards), (2, 2));
    }
}

/// Fact 7: the two-access rule.
#[test]
fn two_accesses() {
    for cause in [3, 6, 7] {
        for a in 0..2 {
            let mut record = pending(a, AWAY);
            record.access[1 - a].state = 5;
            let before = text(&record);
            let mut asks = Reply::of(2);
            asks.leave = Some(a as u8);
            asks.update = Some(1 - a as u8);
            assert_eq!(reject(&mut record, a as u8, 0, cause), asks);
            assert_eq!(text(&record), before);
            assert_eq!(reject(&mut record, a as u8, 1, cause).answer, 0);
            assert_eq!(record.access[1 - a].state, 5);
            assert_eq!(record.access[1 - a].guti, Some(GUTI));
        }
    }
    let mut record = pending(0, AWAY);
    record.access[1].state = 5;
    assert_eq!(reject(&mut record, 0, 0, 11).answer, 0);
}

/// Fact 8: the seventeenth network.
#[test]
fn seventeenth() {
    for (a, cause) in [(0, 11), (1, 73), (0, 27), (1, 72)] {
        let mut record = limited(3);
        for index in 1..=16 {
            assert_eq!(start(&mut record, a, [index / 10 << 4 | index % 10, 0, 0]), 0);
            assert_eq!(reject(&mut record, a, 0, cause).answer, 0);
        }
        assert_eq!(start(&mut record, a, AWAY), 0);
        let before = text(&record);
        assert_eq!(reject(&mut record, a, 0, cause), Reply::of(4));
        assert_eq!(text(&record), before);
        assert_eq!(reject(&mut record, a, 0, 22).answer, 0);
        assert_eq!(record.card(1, HOME, &SUCI).answer, 0);
        assert_eq!(start(&mut record, a, AWAY), 0);
        assert_eq!(reject(&mut record, a, 0, cause).answer, 0);
        assert_eq!(record.access[a as usize].entries.len(), 1);
        valid(&record);
    }
}

#[test]
fn a_full_table_takes_what_needs_no_entry() {
    let mut record = limited(3);
    for index in 1..=16 {
        assert_eq!(start(&mut record, 0, [index / 10 << 4 | index % 10, 0, 0]), 0);
        assert_eq!(reject(&mut record, 0, 0, 11).answer, 0);
    }
    assert_eq!(start(&mut record, 0, HOME), 0);
    assert_eq!(reject(&mut record, 0, 0, 11).answer, 0);
    assert_eq!(record.start(0, 1, area([0x01, 0, 0])).answer, 0);
    assert_eq!(reject(&mut record, 0, 0, 11).answer, 0);
    assert_eq!(record.access[0].entries[0].ban, 2);
}

/// The reply to a message with a fault.
fn faulty(number: u8, at: usize) -> Reply {
    Reply { offset: at, ..Reply::of(number) }
}

fn cause(octets: &[u8]) -> Option<u8> {
    match message::read(octets) {
        Ok(Message::Reject(reject)) => Some(reject.cause),
        _ => None,
    }
}

/// Fact 9, and the formats of unknown elements.
#[test]
fn elements() {
    let head = [0x7E, 0x00, 0x44, 0x0B];
    let with = |rest: &[u8]| cause(&[&head[..], rest].concat());
    assert_eq!(with(&[0x9F, 0x16, 0x01, 0x3F]), Some(11));
    assert_eq!(with(&[0x9F, 0x16, 0x02, 0x3F]), None);
    assert_eq!(with(&[]), Some(11));
    assert_eq!(with(&[0x5F, 0x05]), None);
    assert_eq!(with(&[0x5F]), None);
    assert_eq!(with(&[0x5F, 0x00]), Some(11));
    assert_eq!(with(&[0x52, 0x01, 0x00]), Some(11));
    assert_eq!(with(&[0x52, 1, 2, 3, 4, 5, 6]), None);
    assert_eq!(with(&[0x70, 0x00, 0x01, 0x00]), Some(11));
    assert_eq!(with(&[0x7F, 0x00]), None);
    assert_eq!(with(&[0x7F, 0x01, 0x00]), None);
    for identifier in 0..=255 {
        let alone = with(&[identifier]);
        assert_eq!(alone.is_some(), identifier >= 0x80);
        let zero = with(&[identifier, 0x80]);
        assert_eq!(zero.is_some(), identifier >= 0x80);
        let short = with(&[identifier, 0]);
        assert_eq!(short.is_some(), (0x10..0x70).contains(&identifier));
        let long = with(&[identifier, 0, 0]);
        assert_eq!(long.is_some(), (0x70..0x80).contains(&identifier));
    }
    assert_eq!(cause(&[0x7E, 0x00, 0x44]), None);
    assert_eq!(cause(&[0x7E, 0x00, 0x41, 0x0B]), None);
    assert_eq!(cause(&[0x7D, 0x00, 0x44, 0x0B]), None);
    assert_eq!(cause(&[0x7E, 0x01, 0x44, 0x0B]), None);
    assert_eq!(cause(&[]), None);
}

/// Fact 10, and each unit of GPRS timer 2 with every count.
#[test]
fn timer_octets() {
    assert_eq!(message::seconds(0x3F), Span::Seconds(1860));
    assert_eq!(message::seconds(0x5F), Span::Seconds(11160));
    assert_eq!(message::seconds(0xE5), Span::Deactivated);
    for (top, unit) in [2, 60, 360, 60, 60, 60, 60].into_iter().enumerate() {
        let octet = (top as u8) << 5;
        assert_eq!(message::seconds(octet), Span::Zero, "{octet:02X}");
        for count in 1..32 {
            let span = Span::Seconds(unit * count as u16);
            assert_eq!(message::seconds(octet | count), span, "{octet:02X} {count}");
        }
    }
    for octet in 0xE0..=0xFF {
        assert_eq!(message::seconds(octet), Span::Deactivated, "{octet:02X}");
    }
}

type Said = (Option<Guti>, Vec<u8>, Option<u16>);

fn said(octets: &[u8]) -> Option<Said> {
    match message::read(octets) {
        Ok(Message::Accept(accept)) => {
            Some((accept.guti.copied(), accept.equivalents.to_vec(), accept.t3502))
        }
        _ => None,
    }
}

fn accepted(elements: &[u8]) -> Option<Said> {
    said(&[&[0x7E, 0x00, 0x42, 0x01, 0x01], elements].concat())
}

fn guti_element(lead: u8, extra: usize) -> Vec<u8> {
    let mut octets = vec![0x77, 0x00, 0x0B + extra as u8, lead];
    octets.extend(GUTI);
    octets.extend(vec![0xAA; extra]);
    octets
}

#[test]
fn accepts() {
    let whole = [
        0x77, 0x00, 0x0B, 0xF2, 0x00, 0xF1, 0x10, 0x80, 0x01, 0xC5, 0xD1, 0xC2, 0xB3, 0xA4, 0x4A,
        0x06, 0x00, 0xF2, 0x20, 0x00, 0xF3, 0x30, 0x5E, 0x01, 0x2A, 0x16, 0x01, 0x3F, 0x75, 0x00,
        0x00,
    ];
    let pair = vec![0x00, 0xF2, 0x20, 0x00, 0xF3, 0x30];
    assert_eq!(accepted(&whole), Some((Some(GUTI), pair, Some(1860))));
    let turned = [&[0x16, 0x01, 0x3F][..], &guti_element(0xF2, 0)].concat();
    assert_eq!(accepted(&turned), Some((Some(GUTI), vec![], Some(1860))));
    assert_eq!(accepted(&[]), Some((None, vec![], None)));
    assert_eq!(accepted(&[0x16, 0x01, 0xE5]), Some((None, vec![], None)));
    assert_eq!(accepted(&[0x16, 0x00, 0x16, 0x01, 0x3F]), Some((None, vec![], None)));
    assert_eq!(accepted(&[0x16, 0x01, 0xE5, 0x16, 0x01, 0x3F]), Some((None, vec![], None)));
    assert_eq!(accepted(&[0x16, 0x02, 0x01, 0x3F]), Some((None, vec![], Some(2))));
    assert_eq!(accepted(&guti_element(0xF2, 3)), Some((Some(GUTI), vec![], None)));
    assert_eq!(accepted(&guti_element(0xF1, 0)), Some((None, vec![], None)));
    let repeat = [guti_element(0xF6, 0), guti_element(0xF2, 0)].concat();
    assert_eq!(accepted(&repeat), Some((None, vec![], None)));
    let short = [&[0x77, 0x00, 0x01, 0xF2][..], &guti_element(0xF2, 0)].concat();
    assert_eq!(accepted(&short), Some((None, vec![], None)));
    assert_eq!(accepted(&[0x00]), None);
    assert_eq!(said(&[0x7E, 0x00, 0x42]), None);
    assert_eq!(said(&[0x7E, 0x00, 0x42, 0x00]), None);
    assert_eq!(said(&[0x7E, 0x00, 0x42, 0x01]), None);
    assert_eq!(said(&[0x7E, 0x00, 0x42, 0x02, 0x01]), None);
    assert!(said(&[0x7E, 0x00, 0x42, 0x02, 0x01, 0x00]).is_some());
}

#[test]
fn accept_event() {
    let mut record = pending(0, AWAY);
    for access in &mut record.access {
        hold(
            access,
            Entry { network: AWAY.into(), ban: 2, n1: 1, forbidden: true, n1_barred: true },
        );
    }
    let new = [0x00, 0xF2, 0x20, 1, 2, 3, 4, 5, 6, 7];
    let mut octets = vec![0x7E, 0x00, 0x42, 0x01, 0x01, 0x77, 0x00, 0x0B, 0xF2];
    octets.extend(new);
    octets.extend([0x4A, 0x31]);
    octets.extend([0x77; 48]);
    octets.extend([0x99, 0x16, 0x01, 0x5F]);
    let other = record.access[1];
    let mut expected = Reply::of(0);
    expected.timers[T3510] = Change::Stopped;
    expected.timers[T3512] = Change::Started(3240);
    assert_eq!(record.message(0, 1, drawn(3600), &octets), expected);
    let this = &record.access[0];
    assert_eq!((this.state, this.status, this.attempts, this.t3510), (5, 1, 0, false));
    assert_eq!((this.guti, this.last, this.ksi), (Some(new), Some(area(AWAY)), 3));
    assert_eq!((this.equivalents.len(), this.t3502_length, this.cards), (15, 11160, 1));
    let entry = this.entries[0];
    assert_eq!((entry.ban, entry.n1, entry.forbidden, entry.n1_barred), (2, 1, false, true));
    let mut same = record;
    same.access[1] = other;
    assert_eq!(text(&record), text(&same));
}

#[test]
fn accept_that_gives_nothing() {
    let mut record = pending(1, AWAY);
    assert_eq!(accept(&mut record, 1), 0);
    let this = &record.access[1];
    assert_eq!((this.guti, this.equivalents.len(), this.t3502_length), (Some(GUTI), 0, 720));
    assert_eq!(this.entries.len(), 0);
}

#[test]
fn messages_are_checked_in_order() {
    let mut record = pending(0, AWAY);
    let reject = [0x7E, 0x00, 0x44, 0x0B];
    let accept = [0x7E, 0x00, 0x42, 0x01, 0x01];
    let before = text(&record);
    for (access, protected, draw, octets, refused) in [
        (2, 0, 1800, &reject[..], Reply::of(1)),
        (0, 2, 1800, &reject, Reply::of(1)),
        (0, 0, 1799, &reject, Reply::of(1)),
        (0, 1, 3601, &accept, Reply::of(1)),
        (1, 0, 1799, &[], Reply::of(1)),
        (1, 0, 1800, &reject, Reply::of(6)),
        (1, 0, 1800, &[], Reply::of(6)),
        (0, 0, 1800, &[], faulty(13, 0)),
        (0, 0, 1800, &accept[..4], faulty(13, 4)),
        (0, 1, 1800, &[0x7E, 0x00, 0x41, 0x71], faulty(16, 2)),
        (0, 0, 1800, &accept, Reply::of(10)),
    ] {
        assert_eq!(record.message(access, protected, drawn(draw), octets), refused);
        assert_eq!(text(&record), before);
    }
    assert_eq!(record.message(0, 0, drawn(3600), &reject).timers[T3247], Change::Started(3600));
}

#[test]
fn starts() {
    let mut record = Record::new(Limits { card: 3, ban: 3, n1: 3 }, &[0], &[0xF0, 0xF0]);
    assert_eq!(start(&mut record, 0, AWAY), 5);
    assert_eq!(start(&mut record, 2, AWAY), 1);
    assert_eq!(record.start(0, 2, area(AWAY)).answer, 1);
    for bad in [
        [0x0A, 0xF2, 0x20],
        [0xA0, 0xF2, 0x20],
        [0, 0xE2, 0x20],
        [0, 0xFB, 0x20],
        [0, 0xF2, 0xF0],
        [0, 0xF2, 0x0A],
    ] {
        assert_eq!(start(&mut record, 0, bad), 1);
    }
    record.card(1, HOME, &SUCI);
    for (state, answer) in [(0, 5), (1, 0), (2, 0), (3, 0), (4, 6), (5, 6), (6, 0)] {
        let mut record = record;
        record.access[0].state = state;
        assert_eq!(start(&mut record, 0, AWAY), answer);
    }
    record.access[0].t3511 = true;
    record.access[0].t3502 = true;
    record.access[0].attempts = 5;
    let mut expected = Reply::of(0);
    expected.timers[T3510] = Change::Started(15);
    expected.timers[T3511] = Change::Stopped;
    expected.timers[T3502] = Change::Stopped;
    assert_eq!(record.start(0, 0, area(AWAY)), expected);
    assert_eq!((record.access[0].state, record.access[0].attempts), (4, 5));
    assert_eq!(record.access[0].pending, area(AWAY));
    assert_eq!(start(&mut record, 1, AWAY), 7);
    assert_eq!(record.start(1, 1, area(AWAY)).answer, 7);
    assert_eq!(start(&mut record, 1, HOME), 0);
}

#[test]
fn starts_on_listed_networks_and_areas() {
    let mut record = limited(3);
    let entry = Entry { network: AWAY.into(), ban: 1, n1: 0, forbidden: true, n1_barred: false };
    hold(&mut record.access[0], entry);
    record.roaming.push(Listed { area: area(AWAY), protected: false });
    record.regional.push(Listed { area: area(HOME), protected: true });
    assert_eq!(start(&mut record, 0, AWAY), 8);
    assert_eq!(record.start(0, 1, area(AWAY)), Reply::of(9));
    assert_eq!(start(&mut record, 0, HOME), 9);
    let mut away = area(AWAY);
    away[5] = 0x2B;
    let mut passed = record;
    assert_eq!(passed.start(0, 1, away).answer, 0);
    record.access[0].entries[0].n1_barred = true;
    assert_eq!(record.start(0, 1, away).answer, 8);
    assert_eq!(record.start(1, 0, area(AWAY)).answer, 0);
    assert_eq!(record.start(0, 0, area(AWAY)).answer, 7);
}

#[test]
fn attempts() {
    let mut record = pending(1, AWAY);
    for attempts in 3..5 {
        assert_eq!(out(&mut record, 1, 1), reply(1, false, RETRY));
        assert_eq!(shown(&record, 1), format!("3 5U1 a{attempts} + eq1 c11 e[] r[] g[]"));
        assert_eq!(start(&mut record, 1, AWAY), 0);
        assert!(!record.access[1].t3511);
    }
    for _ in 0..2 {
        assert_eq!(out(&mut record, 1, 1), reply(1, false, LATER));
        assert_eq!(shown(&record, 1), "3 5U2 a5 - eq0 c11 e[] r[] g[]");
        assert_eq!(start(&mut record, 1, AWAY), 0);
    }
    record.access[1].t3502_length = 0;
    assert_eq!(out(&mut record, 1, 1), reply(1, false, Some((T3502, 0))));
    let mut expected = Reply::of(0);
    expected.timers[T3502 + 1] = Change::Stopped;
    expected.restart = Some(1);
    assert_eq!(out(&mut record, 3, 1), expected);
    assert_eq!((record.access[1].state, record.access[1].attempts), (3, 0));
    assert_eq!(out(&mut record, 3, 1), Reply::of(11));
}

#[test]
fn t3511_out() {
    let mut record = pending(0, AWAY);
    out(&mut record, 1, 0);
    let mut expected = Reply::of(0);
    expected.timers[T3511] = Change::Stopped;
    expected.restart = Some(0);
    assert_eq!(out(&mut record, 2, 0), expected);
    assert_eq!(shown(&record, 0), FAILED);
}

/// Of a record handed in: a timer that does not run is left, one that runs is started again.
#[test]
fn timers_of_a_record_handed_in() {
    let mut record = pending(0, AWAY);
    record.access[0].t3510 = false;
    record.access[0].t3511 = true;
    record.access[0].t3502 = true;
    for (cause, timer, seconds) in [(22, T3511, 10), (95, T3502, 60)] {
        let mut record = record;
        let mut expected = Reply::of(0);
        expected.timers[timer] = Change::Started(seconds);
        assert_eq!(reject(&mut record, 0, 0, cause), expected);
    }
    assert_eq!(out(&mut record, 2, 0).restart, Some(0));
    assert_eq!(out(&mut record, 3, 0).restart, Some(0));
}

#[test]
fn timer_checks() {
    let mut record = limited(3);
    for (number, access, answer) in
        [(0, 0, 1), (7, 0, 1), (1, 2, 1), (4, 1, 1), (4, 2, 1), (4, 0, 11), (5, 1, 1), (5, 0, 11)]
    {
        assert_eq!(out(&mut record, number, access), Reply::of(answer));
    }
    for number in [1, 2, 3, 6] {
        assert_eq!(out(&mut record, number, 2), Reply::of(1));
        for access in 0..2 {
            assert_eq!(out(&mut record, number, access), Reply::of(11));
        }
    }
}

/// Entries with every counter from 0 to the limit and both marks, and areas of both kinds.
fn marked() -> Record {
    let mut record = limited(3);
    record.t3247 = true;
    for access in &mut record.access {
        for counter in 0..4 {
            let network = [counter, 0, 0];
            let n1 = 3 - counter;
            hold(
                access,
                Entry {
                    network: network.into(),
                    ban: counter,
                    n1,
                    forbidden: true,
                    n1_barred: true,
                },
            );
        }
        access.attempts = 4;
        access.guti = Some(GUTI);
        access.last = Some(OLD);
        access.ksi = 2;
        access.t3502 = true;
    }
    for (place, protected) in [false, true, false, true, true].into_iter().enumerate() {
        record.roaming.push(Listed { area: [place as u8; 6], protected });
        record.regional.push(Listed { area: [place as u8; 6], protected: !protected });
    }
    record
}

fn marks_of(record: &Record, a: usize) -> Vec<(u8, u8, bool, bool)> {
    let entries = record.access[a].entries.iter();
    entries.map(|entry| (entry.ban, entry.n1, entry.forbidden, entry.n1_barred)).collect()
}

#[test]
fn t3247_out() {
    let mut record = marked();
    let mut expected = Reply::of(0);
    expected.timers[T3247] = Change::Stopped;
    assert_eq!(out(&mut record, 4, 0), expected);
    let after =
        [(0, 3, true, true), (1, 2, false, false), (2, 1, false, false), (3, 0, true, true)];
    for a in 0..2 {
        assert_eq!(marks_of(&record, a), after);
        assert_eq!(record.access[a].attempts, 4);
    }
    let places = |areas: &Areas| areas.iter().map(|held| held.area[0]).collect::<Vec<u8>>();
    assert_eq!(places(&record.roaming), [1, 3, 4]);
    assert_eq!(places(&record.regional), [0, 2]);
    assert!(record.roaming.iter().chain(record.regional.iter()).all(|held| held.protected));
}

#[test]
fn power() {
    let mut record = marked();
    record.access[0].state = 4;
    record.access[0].t3510 = true;
    record.access[1].state = 0;
    record.access[1].t3511 = true;
    let mut expected = Reply::of(0);
    for timer in [T3510, T3511 + 1, T3502, T3502 + 1, T3247] {
        expected.timers[timer] = Change::Stopped;
    }
    assert_eq!(record.power(), expected);
    let after =
        [(0, 3, true, false), (1, 2, false, false), (2, 1, false, false), (3, 0, true, false)];
    for a in 0..2 {
        assert_eq!(marks_of(&record, a), after);
        let this = &record.access[a];
        assert_eq!(
            (this.state, this.attempts, this.guti, this.last, this.ksi),
            (1, 0, Some(GUTI), Some(OLD), 2)
        );
    }
    assert_eq!(record.roaming.len() + record.regional.len(), 0);
    let mut bare = Record::new(record.limits, &[0], &[0, 0]);
    assert_eq!(bare.power(), Reply::of(0));
    assert_eq!((bare.access[0].state, bare.access[1].state), (0, 0));
    bare.t3247 = true;
    assert_eq!(bare.power().timers[T3247], Change::Stopped);
}

#[test]
fn cards() {
    let mut record = marked();
    record.access[1].state = 5;
    let mut suci = [7; 64];
    suci[0] = 1;
    for (home, suci) in
        [(AWAY, &suci[..8]), (AWAY, &[1; 65]), (AWAY, &suci[1..]), ([0xA0, 0, 0], &suci[..])]
    {
        let before = text(&record);
        assert_eq!(record.card(1, home, suci), Reply::of(1));
        assert_eq!(text(&record), before);
    }
    let mut expected = Reply::of(0);
    for timer in [T3502, T3502 + 1, T3247] {
        expected.timers[timer] = Change::Stopped;
    }
    assert_eq!(record.card(1, AWAY, &suci), expected);
    let mut new = Record::new(record.limits, &[0x00], &[0xF0, 0xF0]);
    new.card = true;
    new.home = AWAY;
    new.suci = List::of(&suci);
    new.access[0].state = 1;
    new.access[1].state = 1;
    assert_eq!(text(&record), text(&new));
}

#[test]
fn keys() {
    let mut record = pending(0, AWAY);
    for (access, set, answer) in [(2, 0, 1), (0, 7, 1), (1, 7, 1), (1, 0, 6), (0, 6, 0), (0, 0, 0)]
    {
        assert_eq!(record.key(access, set), Reply::of(answer));
    }
    assert_eq!((record.access[0].ksi, record.access[1].ksi), (0, 3));
}

#[test]
fn a_listed_area_keeps_its_place() {
    let mut record = pending(0, AWAY);
    record.regional.push(Listed { area: area(AWAY), protected: false });
    record.regional.push(Listed { area: OLD, protected: false });
    let mut lowered = record;
    lowered.regional[0].protected = true;
    reject(&mut record, 0, 1, 12);
    assert_eq!(marks(&record.regional), "pu");
    reject(&mut lowered, 0, 0, 12);
    assert_eq!(marks(&lowered.regional), "pu");
    assert_eq!(lowered.regional[0].area, area(AWAY));
}

#[test]
fn a_full_list_drops_its_oldest() {
    let mut record = limited(3);
    for code in 0..41 {
        let mut area = area(AWAY);
        area[5] = code;
        assert_eq!(record.start(0, 0, area).answer, 0);
        assert_eq!(reject(&mut record, 0, 1, 12).answer, 0);
    }
    assert_eq!(record.regional.len(), 40);
    let codes: Vec<u8> = record.regional.iter().map(|held| held.area[5]).collect();
    assert_eq!(codes, (1..41).collect::<Vec<u8>>());
    assert_eq!(record.roaming.len(), 0);
    valid(&record);
}

fn octets(text: &str) -> Vec<u8> {
    text.split_whitespace().map(|octet| u8::from_str_radix(octet, 16).unwrap()).collect()
}

/// The request with these lent, into buffers that are longer, shorter and just fit.
fn written_with(record: &Record, a: u8, s1: S1, attach: &[u8]) -> Vec<u8> {
    let write = |buffer: &mut [u8]| request::write(record, a, s1, attach, buffer);
    let mut buffer = vec![0xEE; request::LONGEST_FROM_S1 + 1];
    let length = write(&mut buffer).unwrap();
    assert!(buffer[length..].iter().all(|&octet| octet == 0xEE));
    for short in [0, length - 1] {
        let mut buffer = vec![0xEE; short];
        assert_eq!(write(&mut buffer), Err(12));
        assert!(buffer.iter().all(|&octet| octet == 0xEE));
    }
    assert_eq!(write(&mut buffer[..length]), Ok(length));
    buffer.truncate(length);
    buffer
}

fn written(record: &Record, a: u8) -> Vec<u8> {
    let octets = written_with(record, a, S1::default(), &[]);
    assert!(octets.len() <= request::LONGEST);
    octets
}

/// A clear part, and a request in a container behind it.
fn contained(clear: &[u8], whole: &[u8]) -> Vec<u8> {
    [clear, &[0x71, 0x00, whole.len() as u8], whole].concat()
}

#[test]
fn requests() {
    let mut record = limited(3);
    for (a, answer) in [(0, 6), (2, 1)] {
        for length in [0, 200] {
            let written = request::write(&record, a, S1::default(), &[], &mut vec![0; length]);
            assert_eq!(written, Err(answer));
        }
    }
    start(&mut record, 0, AWAY);
    let plain = octets("7E 00 41 71 00 09 01 00 F1 10 F0 FF 00 00 07 2E 02 F0 F0");
    assert_eq!(written(&record, 0), plain);
    let read = request::read(&plain).unwrap();
    assert_eq!((read.ksi, read.identity, read.security), (7, 6..15, 17..19));
    assert_eq!((read.capability, read.area), (None, None));

    record.access[0].guti = Some(GUTI);
    record.access[0].last = Some(area(AWAY));
    record.key(0, 3);
    let nested = octets(
        "7E 00 41 31 00 0B F2 00 F1 10 80 01 C5 D1 C2 B3 A4 2E 02 F0 F0 71 00 1F \
         7E 00 41 31 00 0B F2 00 F1 10 80 01 C5 D1 C2 B3 A4 10 01 00 2E 02 F0 F0 52 00 F2 20 00 00 2A",
    );
    assert_eq!(written(&record, 0), nested);
    let read = request::read(&nested).unwrap();
    assert_eq!((read.ksi, read.identity, read.security), (3, 30..41, 46..48));
    assert_eq!((read.capability, read.area), (Some(43..44), Some(49..55)));
    let read = request::read(&nested[24..]).unwrap();
    assert_eq!((read.ksi, read.identity, read.security), (3, 6..17, 22..24));
    assert_eq!((read.capability, read.area), (Some(19..20), Some(25..31)));
    let read = request::read(&nested[..21]).unwrap();
    assert_eq!((read.ksi, read.identity, read.security), (3, 6..17, 19..21));
    assert_eq!((read.capability, read.area), (None, None));
    record.access[0].last = None;
    assert_eq!(written(&record, 0), contained(&nested[..21], &nested[24..48]));
    record.access[0].last = Some(area(AWAY));
    record.access[0].ksi = 7;
    assert_eq!(written(&record, 0)[17..], [0x2E, 0x02, 0xF0, 0xF0]);
}

/// With a key set: the clear part of 80, 71 and its length, and the request of 102 to 110.
#[test]
fn longest_requests() {
    let mut record = pending(0, AWAY);
    record.access[1].guti = None;
    record.access[0].ksi = 7;
    let mut suci = [7; 64];
    suci[0] = 1;
    record.suci = List::of(&suci);
    record.access[0].guti = None;
    record.capability = List::of(&[5; 13]);
    record.security = List::of(&[6; 8]);
    assert_eq!(written(&record, 0).len(), 80);
    record.access[0].ksi = 0;
    assert_eq!(written(&record, 0).len(), 185);
    assert!(request::read(&written(&record, 0)).is_ok());
    record.access[0].regtype = 2;
    assert_eq!(written(&record, 0).len(), 189);
    record.access[0].uplink = [0x00, 0x80];
    let longest = written(&record, 0);
    assert_eq!(longest.len(), 193);
    assert_eq!(longest[80..83], [0x71, 0x00, 110]);
    assert_eq!(request::LONGEST, 193);
    let read = request::read(&longest).unwrap();
    assert_eq!((read.identity, read.capability), (89..153, Some(155..168)));
    assert_eq!((read.security, read.area), (170..178, Some(179..185)));
    assert_eq!((read.uplink, read.sessions), (Some(187..189), Some(191..193)));
}

/// The identity for GUTIs of two networks, either or none held; their last octets differ.
#[test]
fn identities() {
    let guti = |[x, y, z]: Network, last| [x, y, z, 1, 2, 3, 4, 5, 6, last];
    let far: Network = [0x00, 0xF9, 0x90];
    // This access's GUTI, the other's, and which is sent: 0 this, 1 the other, 2 the SUCI.
    for (this, other, sent) in [
        (Some(AWAY), Some(AWAY), 0),
        (Some(EQUIVALENT), Some(AWAY), 1),
        (Some(far), Some(AWAY), 1),
        (Some(far), Some(EQUIVALENT), 1),
        (Some(EQUIVALENT), Some(EQUIVALENT), 0),
        (Some(far), Some(far), 0),
        (None, Some(far), 1),
        (None, Some(EQUIVALENT), 1),
        (Some([0x10, 0xF2, 0x20]), Some(EQUIVALENT), 1),
        (Some([0x00, 0x12, 0x20]), Some(EQUIVALENT), 1),
        (Some([0x00, 0xF2, 0x21]), Some(EQUIVALENT), 1),
        (Some(far), None, 0),
        (None, None, 2),
    ] {
        for a in 0..2 {
            let mut record = pending(a, AWAY);
            record.access[a].guti = this.map(|network| guti(network, 7));
            record.access[1 - a].guti = other.map(|network| guti(network, 8));
            record.access[1 - a].equivalents = List::of(&[far]);
            let mut expected = vec![0xF2];
            match sent {
                0 => expected.extend(guti(this.unwrap(), 7)),
                1 => expected.extend(guti(other.unwrap(), 8)),
                _ => expected = SUCI.to_vec(),
            }
            let octets = written(&record, a as u8);
            assert_eq!(octets[6..6 + expected.len()], expected[..]);
            assert_eq!(octets[5] as usize, expected.len());
            let inner = request::read(&octets).unwrap().identity;
            assert!(inner.start > 6 + expected.len());
            assert_eq!(octets[inner], expected[..]);
        }
    }
}

/// A request with this octet 4, this identity behind its length, and these elements, read.
fn with(fourth: &str, identity: &str, rest: &str) -> Result<request::Request, Fault> {
    request::read(&octets(&format!("7E 00 41 {fourth} {identity} {rest}")))
}

/// A well-formed request that breaks the layout.
const BREAKS: Result<request::Request, Fault> = Err(Fault { number: 3, at: 0 });
const SENT_SUCI: &str = "00 09 01 00 F1 10 F0 FF 00 00 07";

#[test]
fn requests_read_back() {
    let (suci, security) = (SENT_SUCI, "2E 02 F0 F0");
    assert!(with("71", suci, security).is_ok());
    for fourth in ["74", "81", "82", "F1", "F3", "70", "79", "7A"] {
        assert_eq!(with(fourth, suci, security), BREAKS, "{fourth}");
    }
    assert!(with("01", suci, security).is_ok());
    for identity in [
        "00 08 01 00 F1 10 F0 FF 00 00",
        "00 00",
        "00 09 02 00 F1 10 F0 FF 00 00 07",
        "00 0A F2 00 F1 10 80 01 C5 D1 C2 B3",
        "00 0C F2 00 F1 10 80 01 C5 D1 C2 B3 A4 00",
        "00 0B F6 00 F1 10 80 01 C5 D1 C2 B3 A4",
        "00 03 2E 02 F0",
    ] {
        assert_eq!(with("71", identity, security), BREAKS, "{identity}");
    }
    assert!(with("71", "00 0B F2 00 F1 10 80 01 C5 D1 C2 B3 A4", security).is_ok());
    let long = |count: usize| format!("00 {:02X} 01{}", count, " 00".repeat(count - 1));
    assert!(with("71", &long(64), security).is_ok());
    assert_eq!(with("71", &long(65), security), BREAKS);
}

#[test]
fn elements_read_back() {
    for (rest, fits) in [
        ("", false),
        ("2E 01 F0", false),
        ("2E 01 F0 2E 02 F0 F0", false),
        ("2E 08 0 1 2 3 4 5 6 7", true),
        ("2E 09 0 1 2 3 4 5 6 7 8", false),
        ("2E 02 F0 F0 2E 09 0 1 2 3 4 5 6 7 8", true),
        ("2E 02 F0 F0 10 0D 0 1 2 3 4 5 6 7 8 9 A B C", true),
        ("10 0E 0 1 2 3 4 5 6 7 8 9 A B C D 2E 02 F0 F0", false),
        ("10 01 00 10 0E 0 1 2 3 4 5 6 7 8 9 A B C D 2E 02 F0 F0", true),
        ("10 00 2E 02 F0 F0", true),
        ("52 0 1 2 3 4 5 2E 02 F0 F0", true),
        ("2E 02 F0 F0 52 0 1 2 3 4", false),
        ("2E 02 F0 F0 9F 77 00 01 00 40 00", true),
        ("2E 02 F0 F0 0F", false),
        ("2E 02 F0 F0 05 00", false),
        ("2E 02 F0 F0 77 00 05 1", false),
    ] {
        assert_eq!(with("71", SENT_SUCI, rest).is_ok(), fits, "{rest}");
    }
    let turned = with("31", SENT_SUCI, "52 0 1 2 3 4 5 2E 02 F0 F0 10 00 10 01 00").unwrap();
    assert_eq!((turned.area, turned.security, turned.capability), (Some(16..22), 24..26, None));
    let doubled = "2E 02 F0 F0 53 0 52 0 1 2 3 4 5 52 0 1 2 3 4 5";
    let twice = with("31", SENT_SUCI, doubled).unwrap();
    assert_eq!((twice.area, twice.security, twice.capability), (Some(22..28), 17..19, None));
}

/// Gives its octets in pieces of a fixed size.
struct Pieces<'a>(&'a [u8], usize);

impl Read for Pieces<'_> {
    fn read(&mut self, buffer: &mut [u8]) -> io::Result<usize> {
        let count = self.1.min(self.0.len()).min(buffer.len());
        buffer[..count].copy_from_slice(&self.0[..count]);
        self.0 = &self.0[count..];
        Ok(count)
    }
}

/// The records of a log by their lengths, and where it is bad, taken one by one and all at once.
fn split(log: &[u8], piece: usize) -> (Vec<usize>, Option<u64>) {
    let mut input = Input::new(Pieces(log, piece));
    let mut lengths = vec![];
    let bad = loop {
        match input.next().unwrap() {
            Next::Record(octets) => lengths.push(octets.len()),
            Next::Bad(offset) => break Some(offset),
            Next::End => break None,
        }
    };
    let mut again = vec![];
    let each = Input::new(Pieces(log, piece)).each(|octets| {
        again.push(octets.len());
        Ok(())
    });
    assert_eq!((&again, each.unwrap()), (&lengths, bad));
    (lengths, bad)
}

#[test]
fn logs() {
    for piece in [1, 2, 3, 7, 1000, 65536, 100000] {
        assert_eq!(split(&[], piece), (vec![], None));
        assert_eq!(split(&[9], piece), (vec![], Some(0)));
        assert_eq!(split(&[0, 0], piece), (vec![], Some(0)));
        assert_eq!(split(&[1, 0, 5, 0], piece), (vec![], Some(0)));
        assert_eq!(split(&[2, 0, 5, 0], piece), (vec![2], None));
        assert_eq!(split(&[2, 0, 5, 0, 2], piece), (vec![2], Some(4)));
        assert_eq!(split(&[2, 0, 5, 0, 2, 0, 5], piece), (vec![2], Some(4)));
        assert_eq!(split(&LISTING, piece), (vec![14, 10, 10, 10, 4, 10], None));
        let mut log = LISTING.to_vec();
        for _ in 0..3 {
            log.extend([0xFF, 0xFF]);
            log.extend(vec![3; 65535]);
        }
        log.push(2);
        let lengths = vec![14, 10, 10, 10, 4, 10, 65535, 65535, 65535];
        assert_eq!(split(&log, piece), (lengths, Some(70 + 3 * 65537)));
    }
}

#[test]
fn kinds_and_lengths() {
    let mut record = limited(3);
    let mut card = [&[1, 0][..], &HOME, &[1; 64]].concat();
    assert_eq!(apply(&mut record, &card).answer, 0);
    card.push(1);
    assert_eq!(apply(&mut record, &card).answer, 1);
    assert_eq!(apply(&mut record, &card[..13]).answer, 1);
    assert_eq!(apply(&mut record, &card[..14]).answer, 0);
    let start = [2, 0, 0, 0, 0x00, 0xF2, 0x20, 0, 0, 0x2A, 0];
    for (octets, answer) in [
        (&start[..9], 1),
        (&start[..], 1),
        (&start[..10], 0),
        (&[3, 0, 0, 0, 8], 1),
        (&[3, 0, 0, 0, 8, 7], 13),
        (&[3, 0, 0, 0, 7, 7], 1),
        (&[4, 0, 1], 1),
        (&[4, 0, 1, 0, 0], 1),
        (&[4, 0, 2, 0], 11),
        (&[4, 0, 5, 0], 11),
        (&[4, 0, 5, 1], 1),
        (&[4, 0, 6, 0], 11),
        (&[4, 0, 6, 1], 11),
        (&[4, 0, 6, 2], 1),
        (&[4, 0, 7, 0], 1),
        (&[6, 0, 0], 1),
        (&[6, 0, 0, 4, 0], 1),
        (&[6, 0, 0, 4], 0),
        (&[5, 0, 0], 1),
        (&[5, 1], 1),
        (&[0, 0], 1),
        (&[7, 0], 1),
        (&[9, 0, 1, 2], 1),
        (&[4, 0, 1, 0], 0),
        (&[5, 0], 0),
    ] {
        assert_eq!(apply(&mut record, octets).answer, answer, "{octets:?}");
    }
}

/// What document 01 asks of a record handed in; each event keeps it.
fn valid(record: &Record) {
    let limits = record.limits;
    assert!([limits.card, limits.ban, limits.n1].iter().all(|limit| (1..=10).contains(limit)));
    assert!(is_network(&record.home));
    assert!(record.t3512_length <= 35_712_000 && (1..=3).contains(&record.edition));
    assert!(!record.card || (9..=64).contains(&record.suci.len()) && record.suci[0] == 1);
    for access in &record.access {
        assert!(access.state <= 6 && (access.state == 0 || record.card));
        assert!((1..=3).contains(&access.status) && access.attempts <= 5);
        assert!(access.t3502_length <= 11160 && access.ksi <= 7);
        assert!(access.cards <= limits.card && is_network(&network_of(&access.pending)));
        assert!(!access.t3510 || access.state == 4);
        assert!((1..=3).contains(&access.regtype));
        assert!(access.uplink[0] & 1 == 0 && access.sessions[0] & 1 == 0);
        for (place, entry) in access.entries.iter().enumerate() {
            assert!(
                entry.ban <= limits.ban
                    && entry.n1 <= limits.n1
                    && is_network(&entry.network.octets())
            );
            assert!(access.entries[..place].iter().all(|before| before.network != entry.network));
        }
        let mut places = access.order.places();
        places.sort();
        assert!(places.iter().copied().eq(0..access.entries.len() as u8));
    }
    for areas in [&record.roaming, &record.regional] {
        for (place, held) in areas.iter().enumerate() {
            assert!(areas[..place].iter().all(|before| before.area != held.area));
        }
    }
}

struct Draws(u64);

impl Draws {
    fn below(&mut self, bound: u64) -> u8 {
        self.0 = self.0.wrapping_mul(6364136223846793005).wrapping_add(1442695040888963407);
        ((self.0 >> 33) % bound) as u8
    }

    fn area(&mut self) -> Area {
        let mut below = |bound| self.below(bound);
        [below(30) / 10 * 16, 0xF1, 0x10, 0, below(4), below(20)]
    }

    /// Some to a listed area, few with session 0.
    fn update(&mut self, record: &mut Record, a: u8) -> Reply {
        let listed = record.roaming.first().filter(|_| self.below(4) == 0);
        let area = listed.map_or_else(|| self.area(), |held| held.area);
        let uplink = [self.below(128) << 1 | self.below(20) / 19, self.below(256)];
        record.update(a, 2 + self.below(2), area, [uplink, [0, self.below(256)]])
    }

    fn message(&mut self, record: &mut Record, a: u8) -> Reply {
        let causes = [3, 6, 7, 11, 12, 13, 15, 22, 27, 72, 73, 95];
        let drawn = Drawn { t3247: 2000, t3346: 899 + 100 * self.below(10) as u16 };
        if self.below(5) > 1 {
            let cause = causes[self.below(12) as usize];
            let reject = [0x7E, 0, 0x44, cause, 0x5F, 1, self.below(256)];
            let length = [4, 7][self.below(2) as usize];
            return record.message(a, self.below(2), drawn, &reject[..length]);
        }
        if self.below(8) == 0 {
            return record.message(a, self.below(2), drawn, &self.octets());
        }
        let timer = [0x16, 0x5E][self.below(2) as usize];
        record.message(a, 1, drawn, &[0x7E, 0, 0x42, 1, 1, timer, 1, self.below(256)])
    }

    /// A file of up to seven places: unused ones, networks of starts, others, and few bad codes.
    fn import(&mut self, record: &mut Record) -> Reply {
        let place = |draws: &mut Draws| match draws.below(60) {
            0 => [0x00, 0xFA, 0x10],
            1..=9 => UNUSED,
            10..=19 => network_of(&draws.area()),
            _ => [draws.below(10), 0xF2, draws.below(2)],
        };
        let file: Vec<Network> = (0..self.below(8)).map(|_| place(self)).collect();
        import(record, &file)
    }

    fn event(&mut self, record: &mut Record) -> Reply {
        let a = self.below(2);
        match self.below(15) {
            0..=4 => record.start(a, self.below(4) / 3, self.area()),
            5..=9 => self.message(record, a),
            10 => record.timer([1, 2, 3, 6][self.below(4) as usize], a),
            11 => record.key(a, self.below(8)),
            12 | 13 => self.update(record, a),
            _ => match self.below(40) {
                0 => record.card(self.below(5), HOME, &SUCI),
                1..=4 => record.power(),
                5..=20 => record.timer(5, 0),
                21..=26 => self.import(record),
                _ => record.timer(4, 0),
            },
        }
    }
}

/// What holds beyond `valid` for a record that events have made. T3512 runs in state 5 of access 0
/// alone, since each event that leaves it stops T3512; and nothing is tried while T3346 runs.
fn reached(record: &Record) {
    assert!(!record.t3512 || record.access[0].state == 5);
    for access in record.access.iter().filter(|access| access.t3346) {
        assert!(matches!((access.state, access.status, access.attempts), (3 | 5, 2, 0)));
        assert!(!access.t3510 && !access.t3511 && !access.t3502);
    }
}

/// A refusal changes nothing and names no timer; every event keeps the record valid.
#[test]
fn events_at_random() {
    let mut draws = Draws(1);
    let mut record = limited(2);
    let mut updates = [0; 2];
    let mut waits = [0; 2];
    for _ in 0..200_000 {
        let before = record;
        let reply = draws.event(&mut record);
        valid(&record);
        reached(&record);
        waits[0] += usize::from(reply.answer == WAITING);
        if reply.answer != 0 {
            assert_eq!(reply.timers, [Change::Left; TIMERS]);
            assert_eq!(reply.leave.is_some(), reply.answer == 2);
            assert_eq!(text(&record), text(&before));
        }
        assert_ne!(reply.answer, 3);
        assert!(reply.offset == 0 || (13..=18).contains(&reply.answer));
        for a in 0..2 {
            if before.access[a].state == 5 && record.access[a].state == 4 {
                updates[record.access[a].regtype as usize - 2] += 1;
            }
            waits[1] += usize::from(record.access[a].t3346 && !before.access[a].t3346);
        }
    }
    assert!(updates.iter().all(|&taken| taken > 100), "{updates:?}");
    assert!(waits.iter().all(|&times| times > 100), "{waits:?}");
}

// Request R-5: updates and T3512.

/// Differs from AWAY in the first octet alone.
const NEAR: Network = [0x62, 0xF2, 0x20];
const MOVED: [Sessions; 2] = [[0x20, 0x00], [0xA0, 0x01]];
const BEGUN: Change = Change::Started(3240);

fn update(record: &mut Record, a: u8, regtype: u8, network: Network) -> u8 {
    record.update(a, regtype, area(network), MOVED).answer
}

/// A protected accept with elements.
fn accept_with(record: &mut Record, a: u8, elements: &[u8]) -> Reply {
    record.message(a, 1, drawn(1800), &[&[0x7E, 0x00, 0x42, 0x01, 0x01], elements].concat())
}

fn states(record: &Record) -> (u8, u8) {
    (record.access[0].state, record.access[1].state)
}

/// A card, and access `a` registered on `network`.
fn registered(a: u8, network: Network) -> Record {
    let mut record = limited(3);
    register(&mut record, a, network);
    record
}

fn register(record: &mut Record, a: u8, network: Network) {
    assert_eq!(start(record, a, network), 0);
    assert_eq!(accept(record, a), 0);
}

/// As `pending`, but with an update pending, not a start.
fn updating(a: usize, network: Network) -> Record {
    let mut record = pending(a, AWAY);
    record.access[a].state = 5;
    record.access[a].t3510 = false;
    assert_eq!(update(&mut record, a as u8, 2, network), 0);
    record
}

/// A reject takes the same rows; where a start falls to state 3, an update falls to 5.
#[test]
fn rows_of_rejects_in_an_update() {
    for &(causes, a, protected, network, start, t3247, started) in ROWS {
        let after = match started {
            None => start,
            RETRY => "5 5U2 a3 + eq1 c11 e[] r[] g[]",
            _ => "5 5U2 a5 + eq0 c11 e[] r[] g[]",
        };
        for &cause in causes {
            for regtype in [2, 3] {
                let mut record = updating(a, network);
                record.access[a].regtype = regtype;
                record.due = regtype == 3;
                let got = reject(&mut record, a as u8, protected, cause);
                let what = format!("cause {cause} access {a} protected {protected} {network:?}");
                assert_eq!(shown(&record, a), after, "{what}");
                assert_eq!(got, reply(a, t3247, started), "{what}");
                assert_eq!(record.access[a].pending, area(network));
                assert_eq!((record.due, record.t3512), (regtype == 3, false));
                assert_eq!([record.access[a].uplink, record.access[a].sessions], MOVED);
                valid(&record);
            }
        }
    }
}

/// All of a record for which checks 7, 8 and 9 hold of an update of access 0 to AWAY.
fn thrice_refused() -> Record {
    let mut record = registered(0, HOME);
    assert_eq!(start(&mut record, 1, AWAY), 0);
    let entry = Entry { network: AWAY.into(), ban: 1, n1: 0, forbidden: true, n1_barred: false };
    hold(&mut record.access[0], entry);
    record.roaming.push(Listed { area: area(AWAY), protected: false });
    record
}

/// An update away from home over access 0 is refused with this answer and changes nothing.
fn refused_update(record: &mut Record, regtype: u8, answer: u8) {
    let before = text(record);
    assert_eq!(record.update(0, regtype, area(AWAY), MOVED), Reply::of(answer));
    assert_eq!(text(record), before);
}

#[test]
fn updates_are_checked_in_order() {
    let mut record = thrice_refused();
    refused_update(&mut record, 3, 6);
    refused_update(&mut record, 2, 7);
    record.due = true;
    refused_update(&mut record, 3, 7);
    record.access[1].state = 5;
    refused_update(&mut record, 3, 8);
    record.access[0].entries[0].forbidden = false;
    record.access[0].entries[0].n1_barred = true;
    refused_update(&mut record, 2, 8);
    record.access[0].entries.clear();
    refused_update(&mut record, 2, 9);
    std::mem::swap(&mut record.roaming, &mut record.regional);
    refused_update(&mut record, 3, 9);
    record.due = false;
    refused_update(&mut record, 3, 6);
    record.access[0].state = 4;
    refused_update(&mut record, 2, 6);
    record.regional.clear();
    refused_update(&mut record, 2, 6);
    record.access[0].state = 5;
    assert_eq!(update(&mut record, 0, 2, AWAY), 0);
}

#[test]
fn updates_of_access_1_are_checked_by_its_own_table() {
    let mut record = registered(1, HOME);
    let entry = Entry { network: NEAR.into(), ban: 1, n1: 0, forbidden: true, n1_barred: false };
    hold(&mut record.access[0], entry);
    record.regional.push(Listed { area: area(NEAR), protected: true });
    let mut passed = record;
    assert_eq!(update(&mut passed, 1, 2, NEAR), 0);
    assert_eq!(start(&mut record, 0, AWAY), 0);
    assert_eq!(update(&mut record, 1, 2, AWAY), 7);
    hold(&mut record.access[1], entry);
    assert_eq!(update(&mut record, 1, 2, NEAR), 8);
    assert_eq!(update(&mut record, 1, 2, HOME), 0);
}

#[test]
fn updates_from_state_5_only() {
    let mut bare = Record::new(Limits { card: 3, ban: 3, n1: 3 }, &[0], &[0xF0, 0xF0]);
    assert_eq!(update(&mut bare, 0, 2, AWAY), 6);
    for state in 0..=6 {
        for a in 0..2 {
            let mut record = limited(3);
            record.access[1 - a].state = 5;
            record.access[a].state = state;
            let answer = if state == 5 { 0 } else { 6 };
            assert_eq!(update(&mut record, a as u8, 2, AWAY), answer, "state {state}");
        }
    }
}

/// Of the range, before the state.
#[test]
fn ranges_of_updates() {
    let mut bare = Record::new(Limits { card: 3, ban: 3, n1: 3 }, &[0], &[0xF0, 0xF0]);
    let clear = [[0xFE, 0xFF]; 2];
    assert_eq!(bare.update(0, 2, area(AWAY), clear), Reply::of(6));
    assert_eq!(bare.update(0, 2, area(AWAY), [[1, 0], [0, 0]]), Reply::of(1));
    let mut record = registered(0, AWAY);
    record.due = true;
    let mut bad = area(AWAY);
    bad[2] = 0x2A;
    for (access, regtype, place, statuses) in [
        (2, 2, area(AWAY), clear),
        (0, 0, area(AWAY), clear),
        (0, 1, area(AWAY), clear),
        (0, 4, area(AWAY), clear),
        (0, 0x12, area(AWAY), clear),
        (0, 2, bad, clear),
        (0, 2, area(AWAY), [[0xFF, 0xFF], [0; 2]]),
        (0, 3, area(AWAY), [[0; 2], [0x01, 0x00]]),
    ] {
        let before = text(&record);
        assert_eq!(record.update(access, regtype, place, statuses), Reply::of(1));
        assert_eq!(text(&record), before);
    }
    let mut first = [[0x00, 0x01]; 2];
    assert_eq!(record.update(0, 3, area(AWAY), first).answer, 0);
    register(&mut record, 1, NEAR);
    first[0] = [0xFE, 0xFF];
    assert_eq!(record.update(1, 2, area(NEAR), first).answer, 0);
}

/// A taken update sets state, pending registration and timers, and nothing else.
#[test]
fn an_update_taken() {
    for a in 0..2 {
        let mut record = pending(a, AWAY);
        let this = &mut record.access[a];
        (this.state, this.t3510, this.t3511, this.t3502) = (5, false, true, true);
        (record.t3512, record.t3512_length, record.due) = (true, 77, true);
        let mut after = record;
        let mut place = area(NEAR);
        place[3] = 9;
        let this = &mut after.access[a];
        (this.state, this.t3510, this.t3511, this.t3502) = (4, true, false, false);
        (this.pending, this.regtype) = (place, if a == 0 { 3 } else { 2 });
        [this.uplink, this.sessions] = MOVED;
        after.t3512 = a == 1;
        let mut expected = Reply::of(0);
        expected.timers[T3510 + a] = Change::Started(15);
        expected.timers[T3511 + a] = Change::Stopped;
        expected.timers[T3502 + a] = Change::Stopped;
        if a == 0 {
            expected.timers[T3512] = Change::Stopped;
        }
        let regtype = after.access[a].regtype;
        assert_eq!(record.update(a as u8, regtype, place, MOVED), expected);
        assert_eq!(text(&record), text(&after));
    }
    let mut quiet = registered(0, AWAY);
    quiet.t3512 = false;
    let mut expected = Reply::of(0);
    expected.timers[T3510] = Change::Started(15);
    assert_eq!(quiet.update(0, 2, area(AWAY), MOVED), expected);
}

#[test]
fn a_periodic_update_is_never_due_on_access_1() {
    let mut record = registered(0, AWAY);
    assert_eq!(out(&mut record, 5, 0).answer, 0);
    register(&mut record, 1, NEAR);
    assert!(record.due);
    assert_eq!(update(&mut record, 1, 3, NEAR), 6);
    assert_eq!(update(&mut record, 1, 2, NEAR), 0);
}

/// T3512 out: it stops, a periodic update is due, and no request is named.
#[test]
fn t3512_out() {
    let mut record = registered(0, AWAY);
    assert_eq!(update(&mut record, 0, 3, AWAY), 6);
    let mut after = record;
    (after.t3512, after.due) = (false, true);
    let mut expected = Reply::of(0);
    expected.timers[T3512] = Change::Stopped;
    assert_eq!(out(&mut record, 5, 0), expected);
    assert_eq!(text(&record), text(&after));
    assert_eq!(out(&mut record, 5, 0), Reply::of(11));
    assert_eq!(update(&mut record, 0, 3, AWAY), 0);
}

/// Due until the next accept on access 0: over failures, other updates and a power cycle.
#[test]
fn due() {
    let mut record = registered(0, AWAY);
    out(&mut record, 5, 0);
    assert_eq!(update(&mut record, 0, 3, AWAY), 0);
    assert_eq!(out(&mut record, 1, 0).answer, 0);
    assert_eq!((record.due, record.t3512), (true, false));
    assert_eq!(update(&mut record, 0, 3, AWAY), 0);
    assert_eq!(record.power().answer, 0);
    assert!(record.due);
    assert_eq!(start(&mut record, 0, AWAY), 0);
    assert!(record.due);
    register(&mut record, 1, NEAR);
    assert_eq!(update(&mut record, 1, 2, NEAR), 0);
    assert_eq!(accept(&mut record, 1), 0);
    assert!(record.due);
    assert_eq!(accept(&mut record, 0), 0);
    assert!(!record.due);
    assert_eq!(update(&mut record, 0, 3, AWAY), 6);

    out(&mut record, 5, 0);
    assert_eq!(update(&mut record, 0, 2, AWAY), 0);
    assert!(record.due);
    assert_eq!(accept(&mut record, 0), 0);
    assert_eq!(update(&mut record, 0, 3, AWAY), 6);
    out(&mut record, 5, 0);
    assert_eq!(record.card(1, HOME, &SUCI).answer, 0);
    assert!(!record.due);
}

/// T3510 out in an update: 5U2 below 5 too, the identity stays, T3512 stays stopped.
#[test]
fn attempts_of_an_update() {
    for a in 0..2 {
        let mut record = updating(a, NEAR);
        for attempts in 3..5 {
            assert_eq!(out(&mut record, 1, a as u8), reply(a, false, RETRY));
            let after = format!("5 5U2 a{attempts} + eq1 c11 e[] r[] g[]");
            assert_eq!(shown(&record, a), after);
            assert!(!record.t3512 && record.access[a].t3511);
            record.access[a].status = 1;
            assert_eq!(update(&mut record, a as u8, 2, NEAR), 0);
            assert_eq!((record.access[a].t3511, record.access[a].attempts), (false, attempts));
        }
        for _ in 0..2 {
            assert_eq!(out(&mut record, 1, a as u8), reply(a, false, LATER));
            assert_eq!(shown(&record, a), "5 5U2 a5 + eq0 c11 e[] r[] g[]");
            assert_eq!(update(&mut record, a as u8, 2, NEAR), 0);
            assert!(!record.access[a].t3502);
        }
        assert_eq!(out(&mut record, 1, a as u8).answer, 0);
        let mut expected = Reply::of(0);
        expected.timers[T3502 + a] = Change::Stopped;
        expected.restart = Some(a as u8);
        assert_eq!(out(&mut record, 3, a as u8), expected);
        assert_eq!((record.access[a].state, record.access[a].attempts), (5, 0));
    }
}

#[test]
fn a_retry_of_an_update_is_asked_for_in_state_5() {
    let mut record = registered(0, AWAY);
    assert_eq!(update(&mut record, 0, 2, AWAY), 0);
    assert_eq!(out(&mut record, 1, 0).timers[T3511], Change::Started(10));
    assert_eq!(states(&record), (5, 1));
    assert_eq!(out(&mut record, 2, 0).restart, Some(0));
    assert_eq!((record.access[0].state, record.access[0].attempts), (5, 1));
    assert_eq!(update(&mut record, 0, 2, AWAY), 0);
    assert_eq!(reject(&mut record, 0, 0, 111).timers[T3502], Change::Started(720));
    assert_eq!(states(&record), (5, 1));
    assert_eq!(out(&mut record, 3, 0).restart, Some(0));
}

/// The T3247 rule holds for a pair that has no row of its own.
#[test]
fn a_failed_update_may_start_t3247() {
    let mut record = registered(1, AWAY);
    assert_eq!(update(&mut record, 1, 2, AWAY), 0);
    assert_eq!(reject(&mut record, 1, 0, 12), reply(1, true, RETRY));
    assert_eq!(states(&record), (1, 5));
}

/// A start after an update is a start: its failure falls to state 3, and 40 and 50 are gone.
#[test]
fn a_start_sets_the_type() {
    let mut record = registered(0, AWAY);
    assert_eq!(update(&mut record, 0, 2, NEAR), 0);
    assert_eq!(reject(&mut record, 0, 0, 11).answer, 0);
    assert_eq!(states(&record), (6, 1));
    assert_eq!(record.access[0].regtype, 2);
    assert_eq!(start(&mut record, 0, AWAY), 0);
    let this = &record.access[0];
    assert_eq!((this.regtype, this.uplink, this.sessions), (1, [0; 2], [0; 2]));
    assert_eq!(out(&mut record, 1, 0).answer, 0);
    assert_eq!(states(&record), (3, 1));
}

/// The type of an update means nothing outside state 4.
#[test]
fn an_update_ended_by_power_does_not_count_as_registered() {
    let mut record = registered(0, AWAY);
    assert_eq!(update(&mut record, 0, 2, AWAY), 0);
    assert_eq!(record.power().answer, 0);
    let this = &record.access[0];
    assert_eq!((this.state, this.regtype), (1, 2));
    assert_eq!([this.uplink, this.sessions], MOVED);
    assert_eq!(start(&mut record, 1, AWAY), 0);
    assert_eq!(reject(&mut record, 1, 0, 3).answer, 0);
    assert_eq!(states(&record), (1, 2));
}

#[test]
fn a_pending_update_counts_as_registered() {
    for cause in [3, 6, 7] {
        let mut record = registered(0, AWAY);
        register(&mut record, 1, NEAR);
        assert_eq!(update(&mut record, 0, 2, AWAY), 0);
        assert_eq!(update(&mut record, 1, 2, AWAY), 7);
        assert_eq!(update(&mut record, 1, 2, NEAR), 0);
        for a in 0..2 {
            let mut asks = Reply::of(2);
            asks.leave = Some(a);
            asks.update = Some(1 - a);
            let before = text(&record);
            assert_eq!(reject(&mut record, a, 0, cause), asks);
            assert_eq!(text(&record), before);
        }
        assert_eq!(reject(&mut record, 0, 1, cause).answer, 0);
        assert_eq!(states(&record), (0, 4));
        assert_eq!(reject(&mut record, 1, 0, cause).answer, 0);
    }
    let mut record = registered(0, AWAY);
    out(&mut record, 5, 0);
    assert_eq!(update(&mut record, 0, 3, AWAY), 0);
    assert_eq!(start(&mut record, 1, AWAY), 7);
    assert_eq!(start(&mut record, 1, NEAR), 0);
    assert_eq!(reject(&mut record, 1, 0, 3).answer, 2);
    assert_eq!(reject(&mut record, 0, 0, 3).answer, 0);
    assert_eq!(states(&record), (2, 4));
}

/// The rule asks of the other access: an update's own reject counts.
#[test]
fn a_reject_of_an_update_counts() {
    let mut record = registered(0, AWAY);
    assert_eq!(update(&mut record, 0, 2, AWAY), 0);
    assert_eq!(reject(&mut record, 0, 0, 3), reply(0, true, None));
    assert_eq!(states(&record), (2, 1));
    assert_eq!((record.access[0].cards, record.roaming.len()), (1, 1));
    assert!(!record.t3512);
}

#[test]
fn an_accept_of_an_update() {
    let mut record = updating(0, NEAR);
    record.due = true;
    let mut expected = Reply::of(0);
    expected.timers[T3510] = Change::Stopped;
    expected.timers[T3512] = BEGUN;
    assert_eq!(accept_with(&mut record, 0, &[]), expected);
    let this = &record.access[0];
    assert_eq!((this.state, this.status, this.attempts), (5, 1, 0));
    assert_eq!((this.guti, this.last), (Some(GUTI), Some(area(NEAR))));
    assert_eq!((record.t3512, record.due), (true, false));
    assert_eq!(update(&mut record, 0, 2, NEAR), 0);
    let away = accept_with(&mut record, 0, &[0x5E, 0x01, 0xDF]);
    assert_eq!(away.timers[T3512], Change::Started(35_712_000));
    valid(&record);
}

/// Neither an accept nor an update of access 1 touches T3512, its time or what is due.
#[test]
fn access_1_has_no_t3512() {
    let mut record = limited(3);
    assert_eq!(start(&mut record, 1, AWAY), 0);
    let reply = accept_with(&mut record, 1, &[0x5E, 0x01, 0x21]);
    assert_eq!((reply.answer, reply.timers[T3512]), (0, Change::Left));
    assert_eq!((record.t3512, record.t3512_length), (false, 3240));
    assert_eq!(start(&mut record, 0, NEAR), 0);
    assert_eq!(accept_with(&mut record, 0, &[]).timers[T3512], BEGUN);
    let update = record.update(1, 2, area(AWAY), MOVED);
    assert_eq!((update.answer, update.timers[T3512]), (0, Change::Left));
    assert!(record.t3512);
}

/// The time given is kept, zero and deactivated as 0: then nothing starts until one is given.
#[test]
fn the_time_of_t3512_is_kept() {
    for none in [0x00, 0x20, 0xC0, 0xE0, 0xE5, 0xFF] {
        let mut record = limited(3);
        assert_eq!(start(&mut record, 0, AWAY), 0);
        let given: [(&[u8], u32); 6] = [
            (&[], 3240),
            (&[0x5E, 0x01, 0x21], 3600),
            (&[0x5E, 0x00, 0x5E, 0x01, 0x22], 3600),
            (&[0x5E, 0x01, none], 0),
            (&[], 0),
            (&[0x16, 0x01, 0x3F, 0x5E, 0x01, 0x61], 2),
        ];
        for (elements, length) in given {
            let reply = accept_with(&mut record, 0, elements);
            let begun = if length > 0 { Change::Started(length) } else { Change::Left };
            assert_eq!((reply.answer, reply.timers[T3512]), (0, begun), "{elements:?}");
            assert_eq!((record.t3512, record.t3512_length), (length > 0, length));
            assert_eq!(update(&mut record, 0, 2, AWAY), 0);
            assert!(!record.t3512);
        }
    }
}

/// A power cycle stops T3512 and keeps its time; a card change stops it and forgets.
#[test]
fn power_and_card_stop_t3512() {
    let mut record = limited(3);
    assert_eq!(start(&mut record, 0, AWAY), 0);
    assert_eq!(accept_with(&mut record, 0, &[0x5E, 0x01, 0x21]).answer, 0);
    let mut expected = Reply::of(0);
    expected.timers[T3512] = Change::Stopped;
    let mut other = record;
    assert_eq!(record.power(), expected);
    assert_eq!((record.t3512, record.t3512_length), (false, 3600));
    assert_eq!(start(&mut record, 0, AWAY), 0);
    assert_eq!(accept_with(&mut record, 0, &[]).timers[T3512], Change::Started(3600));

    other.due = true;
    assert_eq!(update(&mut other, 0, 2, NEAR), 0);
    other.t3512 = true;
    assert_eq!(other.card(1, HOME, &SUCI).timers[T3512], Change::Stopped);
    assert_eq!(text(&other), text(&limited(3)));
}

/// Of records handed in: a start leaves a running T3512, and an accept that gives zero does
/// not start it, which is not to stop it.
#[test]
fn a_running_t3512_of_a_record_handed_in() {
    let mut record = limited(3);
    (record.t3512, record.due) = (true, true);
    assert_eq!(record.start(0, 0, area(AWAY)).timers[T3512], Change::Left);
    let mut again = record;
    assert_eq!(accept_with(&mut again, 0, &[]).timers[T3512], BEGUN);
    assert_eq!(accept_with(&mut record, 0, &[0x5E, 0x01, 0xE0]).timers[T3512], Change::Left);
    assert_eq!((record.t3512, record.t3512_length, record.due), (true, 0, false));
}

/// Each unit of GPRS timer 3 with 0, 1 and 31.
#[test]
fn long_timer_octets() {
    for (top, unit) in [600, 3600, 36_000, 2, 30, 60, 1_152_000].into_iter().enumerate() {
        for count in [0, 1, 31] {
            let octet = (top as u8) << 5 | count;
            let span = if count == 0 { Span::Zero } else { Span::Seconds(unit * count as u32) };
            assert_eq!(message::long_seconds(octet), span, "{octet:02X}");
        }
    }
    for octet in 0xE0..=0xFF {
        assert_eq!(message::long_seconds(octet), Span::Deactivated);
    }
    assert_eq!(message::long_seconds(0x2A), Span::Seconds(36_000));
    assert_eq!(message::long_seconds(0x49), Span::Seconds(324_000));
    assert_eq!(message::long_seconds(0x9F), Span::Seconds(930));
    assert_eq!(message::long_seconds(0xDF), Span::Seconds(35_712_000));
}

/// What an accept with these elements gives for T3512.
fn given(elements: &[u8]) -> Option<u32> {
    match message::read(&[&[0x7E, 0x00, 0x42, 0x01, 0x01], elements].concat()) {
        Ok(Message::Accept(accept)) => accept.t3512,
        _ => panic!("an accept"),
    }
}

#[test]
fn t3512_in_accepts() {
    for (elements, seconds) in [
        (&[][..], None),
        (&[0x5E, 0x01, 0x21], Some(3600)),
        (&[0x5E, 0x01, 0x00], Some(0)),
        (&[0x5E, 0x01, 0xE1], Some(0)),
        (&[0x5E, 0x00], None),
        (&[0x5E, 0x03, 0x61, 0x21, 0x21], Some(2)),
        (&[0x5E, 0x00, 0x5E, 0x01, 0x21], None),
        (&[0x5E, 0x01, 0xE1, 0x5E, 0x01, 0x21], Some(0)),
        (&[0x5E, 0x01, 0x22, 0x5E, 0x01, 0x21], Some(7200)),
        (&[0x16, 0x01, 0x21], None),
        (&[0x9E, 0x16, 0x01, 0x21, 0x5E, 0x01, 0x81, 0x4A, 0x00], Some(30)),
    ] {
        assert_eq!(given(elements), seconds, "{elements:02X?}");
    }
    let mut record = pending(0, AWAY);
    let cut = [0x7E, 0x00, 0x42, 0x01, 0x01, 0x5E, 0x02, 0x21];
    assert_eq!(record.message(0, 1, drawn(1800), &cut), faulty(17, 5));
}

/// Requests of all types: 40 and 50 stand beside 10 and after 52, in updates alone.
#[test]
fn requests_of_updates() {
    let mut record = limited(3);
    register(&mut record, 0, AWAY);
    record.due = true;
    record.access[0].guti = Some(GUTI);
    record.update(0, 3, area(NEAR), [[0x20, 0x00]; 2]);
    let identity = "00 0B F2 00 F1 10 80 01 C5 D1 C2 B3 A4";
    let clear = |fourth: &str| octets(&format!("7E 00 41 {fourth} {identity} 2E 02 F0 F0"));
    let with = |fourth: &str, rest: &str| {
        let whole = octets(&format!("7E 00 41 {fourth} {identity} 10 01 00 2E 02 F0 F0 {rest}"));
        contained(&clear(fourth), &whole)
    };
    assert_eq!(written(&record, 0), clear("73"));
    assert_eq!(record.key(0, 3).answer, 0);
    let last = "52 00 F2 20 00 00 2A";
    let both = "40 02 20 00 50 02 20 00";
    assert_eq!(written(&record, 0), with("33", &format!("{last} {both}")));
    record.access[0].regtype = 2;
    assert_eq!(written(&record, 0), with("32", &format!("{last} {both}")));
    record.access[0].last = None;
    assert_eq!(written(&record, 0), with("32", both));
    record.access[0].last = Some(area(AWAY));
    for (uplink, sessions, rest) in [
        ([0x00, 0x00], [0x00, 0x00], "50 02 00 00"),
        ([0x00, 0x00], [0x80, 0x01], "50 02 80 01"),
        ([0x00, 0x80], [0x00, 0x00], "40 02 00 80 50 02 00 00"),
        ([0x02, 0x00], [0xFE, 0xFF], "40 02 02 00 50 02 FE FF"),
    ] {
        (record.access[0].uplink, record.access[0].sessions) = (uplink, sessions);
        assert_eq!(written(&record, 0), with("32", &format!("{last} {rest}")));
    }
    record.access[0].regtype = 1;
    assert_eq!(written(&record, 0), with("31", last));
    record.access[0].last = None;
    assert_eq!(written(&record, 0), with("31", ""));
    record.access[0].regtype = 2;
    record.access[0].ksi = 7;
    assert_eq!(written(&record, 0), clear("72"));
}

/// What is written reads back to the record's own words, of every type and in both shapes: with
/// a key set by the places in the container, and the clear part says no more than without one.
#[test]
fn requests_of_all_types_read_back() {
    let mut record = updating(1, AWAY);
    record.capability = List::of(&[1, 2, 3]);
    let areas = [Some(OLD), None];
    for (case, ksi) in (0..=7).cycle().take(8 * 3 * 2 * 2).enumerate() {
        let this = &mut record.access[1];
        let regtype = 1 + (case / 8 % 3) as u8;
        (this.ksi, this.regtype, this.last) = (ksi, regtype, areas[case / 24 % 2]);
        this.uplink = [[0x20, 0x01], [0; 2]][case / 48];
        let this = record.access[1];
        let octets = written(&record, 1);
        let read = request::read(&octets).unwrap();
        let whole = ksi < 7;
        let update = whole && regtype > 1;
        let part = |part: Option<Range<usize>>| part.map(|part| &octets[part]);
        assert_eq!((read.regtype, read.ksi), (regtype, ksi));
        assert_eq!(read.identity.start, if whole { 30 } else { 6 });
        assert_eq!(octets[read.identity], [&[0xF2], &GUTI[..]].concat());
        assert_eq!(octets[read.security], [0xF0, 0xF0]);
        assert_eq!(part(read.capability), whole.then_some(&[1, 2, 3][..]));
        assert_eq!(part(read.area), this.last.as_ref().filter(|_| whole).map(|area| &area[..]));
        let sent = (update && this.uplink != [0; 2]).then_some(&this.uplink[..]);
        assert_eq!(part(read.uplink), sent);
        assert_eq!(part(read.sessions), update.then_some(&MOVED[1][..]));
        let clear = request::read(&octets[..21]).unwrap();
        assert_eq!((clear.regtype, clear.ksi, clear.identity), (regtype, ksi, 6..17));
        assert_eq!((clear.security, clear.capability, clear.area), (19..21, None, None));
        assert_eq!((clear.uplink, clear.sessions), (None, None));
        assert_eq!(octets.len() > 21, whole);
    }
}

#[test]
fn statuses_read_back() {
    let head = "00 09 01 00 F1 10 F0 FF 00 00 07 2E 02 F0 F0";
    for fourth in ["71", "72", "73", "01", "02", "03", "61", "62", "63"] {
        for (rest, uplink, sessions) in [
            ("", None, None),
            ("40 02 20 00 50 02 A0 01", Some(21..23), Some(25..27)),
            ("50 02 A0 01 40 02 20 00", Some(25..27), Some(21..23)),
            ("50 04 20 00 00 00", None, Some(21..23)),
            ("40 01 20 50 00", None, None),
            ("40 00 40 02 20 00", None, None),
            ("50 01 20 50 02 20 00", None, None),
            ("50 02 20 00 50 02 40 00", None, Some(21..23)),
            ("9F 40 05 02 03 04 05 06", Some(22..24), None),
            ("40 02 01 00 50 02 FF FF", Some(21..23), Some(25..27)),
            ("40 02 00 00", Some(21..23), None),
        ] {
            let read = request::read(&octets(&format!("7E 00 41 {fourth} {head} {rest}"))).unwrap();
            let fourth = u8::from_str_radix(fourth, 16).unwrap();
            assert_eq!((read.regtype, read.ksi), (fourth & 15, fourth >> 4));
            assert_eq!((read.uplink, read.sessions), (uplink, sessions), "{rest}");
            assert_eq!((read.security, read.capability, read.area), (17..19, None, None));
        }
    }
    let cut = format!("7E 00 41 72 {head} 40 02 20");
    assert_eq!(request::read(&octets(&cut)), Err(Fault { number: 17, at: 19 }));
}

/// Kind 7 of the log: 12 octets of body, in this order.
#[test]
fn updates_in_logs() {
    let mut record = registered(0, AWAY);
    let body = octets("07 00 00 02 62 F2 20 01 02 03 20 40 80 08 00");
    for length in (2..14).chain([15]) {
        assert_eq!(apply(&mut record, &body[..length]), Reply::of(1));
    }
    assert_eq!(apply(&mut record, &octets("07 01 00 02 62 F2 20 01 02 03 20 40 80 08")).answer, 1);
    assert_eq!(apply(&mut record, &octets("07 00 00 03 62 F2 20 01 02 03 20 40 80 08")).answer, 6);
    assert_eq!(apply(&mut record, &octets("04 00 05 01")).answer, 1);
    assert_eq!(apply(&mut record, &octets("04 00 05 00")).answer, 0);
    assert_eq!(apply(&mut record, &octets("04 00 05 00")).answer, 11);
    let mut periodic = record;
    let taken = octets("07 00 00 03 62 F2 20 01 02 03 20 40 80 08");
    assert_eq!(apply(&mut periodic, &taken).answer, 0);
    assert_eq!(periodic.access[0].regtype, 3);
    assert_eq!(apply(&mut record, &body[..14]).answer, 0);
    let this = &record.access[0];
    assert_eq!((this.regtype, this.pending), (2, [0x62, 0xF2, 0x20, 1, 2, 3]));
    assert_eq!((this.uplink, this.sessions), ([0x20, 0x40], [0x80, 0x08]));
}

/// The line of `--full`, which another program prints too.
#[test]
fn full_line() {
    let mut record = registered(0, AWAY);
    accept_with(&mut record, 0, &[]);
    let reply = record.update(0, 2, area(NEAR), MOVED);
    let mut line = String::new();
    crate::full::reply(&mut line, &reply);
    crate::full::record(&mut line, &record);
    let parts = [
        "= 0 at 0 T3510 started:15 left T3511 left left T3502 left left T3346 left left \
         T3247 left T3512 stopped restart - leave - update -",
        "card 1 home 00f110 suci 0100f110f0ff000007 limits 3 3 3 cap 00 sec f0f0 edition 1 \
         T3247 0 T3512 0 length 3240 due 0 roaming - regional -",
        "0 state 4 status 1 attempts 0 T3510 1 T3511 0 T3502 0 length 720 T3346 0 \
         pending 62f22000002a type 2 uplink 2000 sessions a001 guti - last 00f22000002a ksi 7 \
         equivalents - cards 0 entries -",
        "1 state 1 status 2 attempts 0 T3510 0 T3511 0 T3502 0 length 720 T3346 0 \
         pending 000000000000 type 1 uplink 0000 sessions 0000 guti - last - ksi 7 \
         equivalents - cards 0 entries -",
    ];
    assert_eq!(line, parts.join(" | "));
}

/// Another line of `--full`, and the lines of `--read`, for faults.
#[test]
fn fault_lines() {
    let mut line = String::new();
    crate::full::reply(&mut line, &faulty(17, 305));
    let told = "= 17 at 305 T3510 left left T3511 left left T3502 left left T3346 left left \
                T3247 left T3512 left restart - leave - update -";
    assert_eq!(line, told);
    for (octets, told) in [
        (&[][..], "13 at 0"),
        (&[0x7D], "14 at 0"),
        (&[0x7E, 0x00, 0x41, 0x71, 0x00, 0x00, 0x2E, 0x00], "3"),
        (&levels("H S 71 00 19 H S 71 00 01 05"), "19 at 45"),
    ] {
        let mut text = String::new();
        crate::refused(&mut text, request::read(octets).unwrap_err());
        assert_eq!(text, told);
    }
}

/// The lines of `--request`: what is sent with a key set, and what it says.
#[test]
fn request_lines() {
    let mut record = limited(3);
    start(&mut record, 0, AWAY);
    record.key(0, 3);
    let mut text = String::new();
    crate::requests(&mut text, &record, &crate::Lent::default());
    let head = "7e00413100090100f110f0ff000007";
    let lines = format!(
        "request 0 {head}2e02f0f0710016{head}1001002e02f0f0\n\
         read 0 type 1 ksi 3 identity 0100f110f0ff000007 cap 00 sec f0f0 area - uplink - \
         sessions - additional - status - attach -\n"
    );
    assert_eq!(text, lines);
}

/// Messages for the event call: the number and offset of the fault, None if it has none.
const MESSAGES: &[(&str, Option<(u8, usize)>)] = &[
    ("", Some((13, 0))),
    ("7E", Some((13, 1))),
    ("7E 00", Some((13, 2))),
    // Octet 1, with all else right, and before all else that is wrong.
    ("7D", Some((14, 0))),
    ("00", Some((14, 0))),
    ("7F", Some((14, 0))),
    ("7D 01", Some((14, 0))),
    ("7D 01 99", Some((14, 0))),
    ("7D 00 44 0B", Some((14, 0))),
    ("7D 00 44 0B 05", Some((14, 0))),
    ("00 7E 00 44 0B", Some((14, 0))),
    // Octet 2.
    ("7E 01", Some((15, 1))),
    ("7E FF", Some((15, 1))),
    ("7E 7E", Some((15, 1))),
    ("7E 01 99", Some((15, 1))),
    ("7E 01 44 0B", Some((15, 1))),
    ("7E 01 42 00", Some((15, 1))),
    ("7E 02 42 01 01 05", Some((15, 1))),
    // The type.
    ("7E 00 99", Some((16, 2))),
    ("7E 00 41", Some((16, 2))),
    ("7E 00 43", Some((16, 2))),
    ("7E 00 45", Some((16, 2))),
    ("7E 00 00", Some((16, 2))),
    ("7E 00 FF 05 00", Some((16, 2))),
    ("7E 00 41 71 00 09 01 00 F1 10 F0 FF 00 00 07 2E 02 F0 F0", Some((16, 2))),
    // A reject's fixed octets.
    ("7E 00 44", Some((13, 3))),
    ("7E 00 44 0B", None),
    ("7E 00 44 00", None),
    // An accept's: the result has a length of at least 1.
    ("7E 00 42", Some((13, 3))),
    ("7E 00 42 00", Some((13, 3))),
    ("7E 00 42 00 01 02", Some((13, 3))),
    ("7E 00 42 00 05", Some((13, 3))),
    ("7E 00 42 00 9F", Some((13, 3))),
    ("7E 00 42 01", Some((13, 4))),
    ("7E 00 42 02", Some((13, 4))),
    ("7E 00 42 FF", Some((13, 4))),
    ("7E 00 42 02 01", Some((13, 5))),
    ("7E 00 42 03 05 00", Some((13, 6))),
    ("7E 00 42 01 01", None),
    ("7E 00 42 01 05", None),
    ("7E 00 42 02 05 00", None),
    // An element past the end, by each format and by one octet.
    ("7E 00 44 0B 10", Some((17, 4))),
    ("7E 00 44 0B 5F", Some((17, 4))),
    ("7E 00 44 0B 5F 05", Some((17, 4))),
    ("7E 00 44 0B 5F 02 00", Some((17, 4))),
    ("7E 00 44 0B 5F 02 00 00", None),
    ("7E 00 44 0B 70", Some((17, 4))),
    ("7E 00 44 0B 70 00", Some((17, 4))),
    ("7E 00 44 0B 70 00 00", None),
    ("7E 00 44 0B 7F 00 01", Some((17, 4))),
    ("7E 00 44 0B 7F 00 01 05", None),
    ("7E 00 44 0B 7F 01 00 05", Some((17, 4))),
    ("7E 00 44 0B 80", None),
    ("7E 00 44 0B 52 01 02 03 04 05 06", Some((17, 7))),
    ("7E 00 44 0B 52 03 02 03 04", None),
    ("7E 00 44 0B 52 06 02 03 04 05 06", Some((17, 4))),
    ("7E 00 42 01 01 5F", Some((17, 5))),
    ("7E 00 42 02 01 01 5F 01", Some((17, 6))),
    ("7E 00 44 0B 9F 77 00", Some((17, 5))),
    ("7E 00 44 0B 5F 00 77 00 02 01", Some((17, 6))),
    // One that must be understood, and of two faults at one octet the lower number.
    ("7E 00 44 0B 05 00", Some((18, 4))),
    ("7E 00 44 0B 00 00", Some((18, 4))),
    ("7E 00 44 0B 0F 00", Some((18, 4))),
    ("7E 00 44 0B 0F 02 01 02", Some((18, 4))),
    ("7E 00 44 0B 05", Some((17, 4))),
    ("7E 00 44 0B 00", Some((17, 4))),
    ("7E 00 44 0B 0F", Some((17, 4))),
    ("7E 00 44 0B 05 02 00", Some((17, 4))),
    ("7E 00 42 01 01 05 00", Some((18, 5))),
    ("7E 00 42 01 01 05", Some((17, 5))),
    ("7E 00 44 0B 9F 05 00", Some((18, 5))),
    ("7E 00 44 0B 9F 05", Some((17, 5))),
    // Of two elements the first.
    ("7E 00 44 0B 05 00 5F", Some((18, 4))),
    ("7E 00 44 0B 05 00 05 00", Some((18, 4))),
    ("7E 00 44 0B 5F 03 05 00", Some((17, 4))),
    ("7E 00 44 0B 5F 02 05 00", None),
    ("7E 00 44 0B 5F 01 05 00 00", Some((18, 7))),
    // Cause 22 with T3346, which does not count where another element is at fault.
    ("7E 00 44 16 5F 01 2F 16 01 3F", None),
    ("7E 00 44 16 5F 01", Some((17, 4))),
    ("7E 00 44 16 5F 02 21", Some((17, 4))),
    ("7E 00 44 16 5F 01 21 5F", Some((17, 7))),
    ("7E 00 44 16 5F 01 21 05 00", Some((18, 7))),
    ("7E 00 44 16 05 00 5F 01 21", Some((18, 4))),
];

/// Each in state 4, with and without protection: the fault's reply, and nothing changes.
#[test]
fn faults_of_messages() {
    for (text_of, fault) in MESSAGES {
        let octets = octets(text_of);
        let told = message::read(&octets).err().map(|fault| (fault.number, fault.at));
        assert_eq!(told, *fault, "{text_of}");
        for (a, protected) in [(0, 0), (0, 1), (1, 0), (1, 1)] {
            let mut record = pending(a, AWAY);
            let before = text(&record);
            let reply = record.message(a as u8, protected, drawn(1800), &octets);
            if let Some((number, at)) = *fault {
                assert_eq!(reply, faulty(number, at), "{text_of}");
                assert_eq!(text(&record), before);
            } else {
                let unprotected = octets[2] == 0x42 && protected == 0;
                assert_eq!(reply.answer, if unprotected { 10 } else { 0 }, "{text_of}");
                assert_eq!(reply.offset, 0);
            }
        }
    }
}

/// The longest record of a log has a message of 65,529 octets; its last one is at fault.
#[test]
fn faults_far_out() {
    let head = [3, 0, 0, 0, 8, 7, 0x7E, 0, 0x44, 0x0B, 0x70, 0xFF, 0xF1];
    let octets = [&head[..], &[0; 0xFFF1], &[0x5F]].concat();
    assert_eq!(octets.len(), 65535);
    assert_eq!(apply(&mut pending(0, AWAY), &octets), faulty(17, 65528));
    assert_eq!(apply(&mut pending(0, AWAY), &octets[..65534]).answer, 0);
    assert_eq!(apply(&mut pending(0, AWAY), &octets[..65533]), faulty(17, 4));
}

/// 13 to 18 stand where 3 stood: behind 1 and 6, before 10, 2 and 4.
#[test]
fn faults_in_the_order_of_checks() {
    let ends: &[(&[u8], u8)] = &[(&[0x5F], 17), (&[0x05, 0x00], 18)];
    for &(end, number) in ends {
        let accept = [&[0x7E, 0x00, 0x42, 0x01, 0x01][..], end].concat();
        let mut record = pending(0, AWAY);
        assert_eq!(record.message(2, 0, drawn(1800), &accept), Reply::of(1));
        assert_eq!(record.message(0, 0, drawn(1799), &accept), Reply::of(1));
        assert_eq!(record.message(1, 0, drawn(1800), &accept), Reply::of(6));
        assert_eq!(record.message(0, 0, drawn(1800), &accept), faulty(number, 5));
        // Cause 3 while the other access is registered: 2. A full table of marks: 4.
        let rejected = |cause| [&[0x7E, 0x00, 0x44, cause][..], end].concat();
        record.access[1].state = REGISTERED;
        assert_eq!(record.message(0, 0, drawn(1800), &rejected(3)), faulty(number, 4));
        assert_eq!(record.message(0, 0, drawn(1800), &rejected(3)[..4]).answer, 2);
        for index in 1..=16 {
            hold(&mut record.access[0], new([index % 10, 0, index / 10]));
        }
        assert_eq!(record.message(0, 0, drawn(1800), &rejected(11)), faulty(number, 4));
        assert_eq!(record.message(0, 0, drawn(1800), &rejected(11)[..4]).answer, 4);
    }
}

/// Requests as read back: the number and offset of the fault, None if it has none.
const REQUESTS: &[(&str, Option<(u8, usize)>)] = &[
    ("", Some((13, 0))),
    ("7E", Some((13, 1))),
    ("7E 00", Some((13, 2))),
    ("7E 00 41", Some((13, 3))),
    ("7E 00 41 71", Some((13, 4))),
    ("7E 00 41 81", Some((13, 4))),
    ("7E 00 41 71 00", Some((13, 5))),
    ("7E 00 41 71 00 09", Some((13, 6))),
    ("7E 00 41 71 00 09 01 00 F1 10 F0 FF 00 00", Some((13, 14))),
    ("7E 00 41 71 01 09 01 00 F1 10 F0 FF 00 00 07 2E 02 F0 F0", Some((13, 19))),
    ("7E 00 41 00 FF FF 05", Some((13, 7))),
    ("7D 00 41 71", Some((14, 0))),
    ("7D 01 42", Some((14, 0))),
    ("7E 01 41 71", Some((15, 1))),
    ("7E 00 42", Some((16, 2))),
    ("7E 00 42 00", Some((16, 2))),
    ("7E 00 44 0B", Some((16, 2))),
    ("7E 00 42 71 00 09 01 00 F1 10 F0 FF 00 00 07 2E 02 F0 F0", Some((16, 2))),
    // Whole, but not by the layout.
    ("7E 00 41 71 00 00", Some((3, 0))),
    ("7E 00 41 71 00 00 2E 02 F0 F0", Some((3, 0))),
    ("7E 00 41 71 00 09 01 00 F1 10 F0 FF 00 00 07", Some((3, 0))),
    ("7E 00 41 81 00 09 01 00 F1 10 F0 FF 00 00 07 2E 02 F0 F0", Some((3, 0))),
    ("7E 00 41 71 00 09 01 00 F1 10 F0 FF 00 00 07 2E 02 F0 F0", None),
    // A fault behind a broken layout is told all the same.
    ("7E 00 41 81 00 00 05", Some((17, 6))),
    ("7E 00 41 81 00 00 05 00", Some((18, 6))),
    ("7E 00 41 81 00 09 01 00 F1 10 F0 FF 00 00 07 2E 02 F0", Some((17, 15))),
    // 52 has seven octets in all.
    ("7E 00 41 71 00 00 52 00 F2 20 00 00", Some((17, 6))),
    ("7E 00 41 71 00 00 52 00 F2 20 00 00 2A", Some((3, 0))),
    ("7E 00 41 71 00 00 52 00 F2 20 00 00 2A 05 00", Some((18, 13))),
    ("7E 00 41 71 00 09 01 00 F1 10 F0 FF 00 00 07 2E 02 F0 F0 52 0 1 2 3 4", Some((17, 19))),
    ("7E 00 41 71 00 09 01 00 F1 10 F0 FF 00 00 07 2E 02 F0 F0 52 0 1 2 3 4 5", None),
    ("7E 00 41 71 00 09 01 00 F1 10 F0 FF 00 00 07 9F 05 00 2E 02 F0 F0", Some((18, 16))),
];

#[test]
fn faults_of_requests() {
    for (text, fault) in REQUESTS {
        let told = request::read(&octets(text)).err().map(|fault| (fault.number, fault.at));
        assert_eq!(told, *fault, "{text}");
    }
}

// Request R-3: a request inside a container inside a request.

/// Octets with letters for parts: H the head and GUTI of 17 octets, with ngKSI 3, G the same with
/// ngKSI 7, S the 2E. In "H S 71 .." the container is at 21 and its contents begin at 24; of "H S"
/// in it the elements end at 45.
fn levels(text: &str) -> Vec<u8> {
    let identity = "00 0B F2 00 F1 10 80 01 C5 D1 C2 B3 A4";
    let heads = ["31", "71"].map(|fourth| format!("7E 00 41 {fourth} {identity}"));
    octets(&text.replace('H', &heads[0]).replace('G', &heads[1]).replace('S', "2E 02 F0 F0"))
}

/// Requests in one another: the number and offset of the refusal, None if it is read.
const NESTED: &[(&str, Option<(u8, usize)>)] = &[
    ("H S", None),
    ("H S 71 00 15 H S", None),
    // The container is an element of its level: past the end it is not opened.
    ("H S 71", Some((17, 21))),
    ("H S 71 00", Some((17, 21))),
    ("H S 71 00 01", Some((17, 21))),
    ("H S 71 00 16 H S", Some((17, 21))),
    ("H S 71 00 03 7D 00", Some((17, 21))),
    ("H S 71 01 15 H S", Some((17, 21))),
    ("H S 71 FF FF 7D", Some((17, 21))),
    // Its octets one by one; cut is at the end of the container.
    ("H S 71 00 01 7D", Some((14, 24))),
    ("H S 71 00 01 7E", Some((13, 25))),
    ("H S 71 00 02 7E 01", Some((15, 25))),
    ("H S 71 00 02 7E 00", Some((13, 26))),
    ("H S 71 00 03 7E 00 40", Some((16, 26))),
    ("H S 71 00 03 7E 00 41", Some((13, 27))),
    ("H S 71 00 04 7E 00 44 0B", Some((16, 26))),
    ("H S 71 00 05 7E 00 42 01 01", Some((16, 26))),
    ("H S 71 00 04 7E 00 42 00", Some((16, 26))),
    ("H S 71 00 06 7E 00 41 31 00 0B F2 00 F1 10 80 01 C5 D1 C2 B3 A4", Some((13, 30))),
    ("H S 71 00 10 7E 00 41 31 00 0B F2 00 F1 10 80 01 C5 D1 C2 B3 9F", Some((13, 40))),
    // An element past the end of the container, whatever stands behind it.
    ("H S 71 00 16 H S 16 00", Some((17, 45))),
    ("H S 71 00 17 H S 16 01 00", Some((17, 45))),
    ("H S 71 00 18 H S 71 00 01 16 00", Some((17, 45))),
    ("H S 71 00 14 H S", Some((17, 41))),
    ("H S 71 00 17 H S 05 00", Some((18, 45))),
    ("H S 71 00 16 H S 05 00", Some((17, 45))),
    ("H S 71 00 16 H S 9F", None),
    // The outer message behind the container, and of two faults the lower offset or number.
    ("H S 71 00 15 H S 16", Some((17, 45))),
    ("H S 71 00 15 H S 05 00", Some((18, 45))),
    ("H S 71 00 15 H S 05", Some((17, 45))),
    ("H S 71 00 02 7E 00 16", Some((13, 26))),
    ("H S 71 00 02 7E 00 05 00", Some((13, 26))),
    ("H S 71 00 17 H S 05 00 16", Some((18, 45))),
    ("H S 71 00 01 7D 05", Some((14, 24))),
    ("H 05 00 71 00 01 7D", Some((18, 17))),
    ("H 16 05 71 00 01 7D", Some((17, 17))),
    // A third level, which is not opened: at its 71, behind every fault and before 3.
    ("H S 71 00 2D H S 71 00 15 H S", Some((19, 45))),
    ("H S 71 00 19 H S 71 00 01 05", Some((19, 45))),
    ("H S 71 00 19 H S 71 00 01 7D", Some((19, 45))),
    ("H S 71 00 1B H S 71 00 03 71 00 00", Some((19, 45))),
    ("H S 71 00 1A H S 9F 71 00 01 05", Some((19, 46))),
    ("H S 71 00 19 H S 71 00 01 05 05", Some((17, 49))),
    ("H S 71 00 19 H S 71 00 01 05 05 00", Some((18, 49))),
    ("H S 71 00 19 H S 71 00 01 05 16", Some((17, 49))),
    ("H S 71 00 1A H S 71 00 01 05 16 00", Some((17, 49))),
    ("H S 71 00 1B H S 71 00 01 05 05 00", Some((18, 49))),
    ("H 71 00 19 H S 71 00 01 05", Some((19, 41))),
    ("H S 71 00 15 H 71 00 01 05", Some((19, 41))),
    ("H 71 00 15 H 71 00 01 05", Some((19, 37))),
    ("H S 71 00 19 H 71 00 01 05 S 71 00 15 H S", Some((19, 41))),
    // The first container counts: an empty one is absent at each level, a second never opened.
    ("H S 71 00 00", None),
    ("H S 71 00 00 71 00 15 H S", None),
    ("H S 71 00 00 71 00 01 7D", None),
    ("H 71 00 00 71 00 01 7D", Some((3, 0))),
    ("H S 71 00 15 H S 71 00 01 7D", None),
    ("H S 71 00 15 H S 71 00 00", None),
    ("H S 71 00 15 H S 71 00 02 7E", Some((17, 45))),
    ("H S 71 00 18 H S 71 00 00", None),
    ("H S 71 00 1C H S 71 00 00 71 00 01 05", None),
    ("H S 71 00 1C H S 71 00 01 05 71 00 00", Some((19, 45))),
    // Each level keeps the layout.
    ("H S 71 00 11 H", Some((3, 0))),
    ("H 71 00 15 H S", Some((3, 0))),
    ("H 71 00 15 H S S", None),
    ("H 2E 09 0 1 2 3 4 5 6 7 8 71 00 15 H S", Some((3, 0))),
    ("H 2E 08 0 1 2 3 4 5 6 7 71 00 15 H S", None),
    ("H S 71 00 1C H 2E 09 0 1 2 3 4 5 6 7 8", Some((3, 0))),
    ("H 2E 01 F0 71 00 15 H S", Some((3, 0))),
    ("H S 10 0E 0 1 2 3 4 5 6 7 8 9 A B C D 71 00 15 H S", Some((3, 0))),
    ("H S 71 00 0A 7E 00 41 31 00 00 S", Some((3, 0))),
    ("7E 00 41 31 00 00 S 71 00 15 H S", Some((3, 0))),
    ("7E 00 41 81 00 09 01 00 F1 10 F0 FF 00 00 07 S 71 00 15 H S", Some((3, 0))),
    ("H S 71 00 13 7E 00 41 34 00 09 01 00 F1 10 F0 FF 00 00 07 S", Some((3, 0))),
    // With and without a key set.
    ("G S 71 00 15 H S", None),
    ("H S 71 00 15 G S", None),
    ("G S 71 00 2D G S 71 00 15 G S", Some((19, 45))),
];

#[test]
fn nested_requests() {
    for (text, refusal) in NESTED {
        let octets = levels(text);
        let told = request::read(&octets).err().map(|fault| (fault.number, fault.at));
        assert_eq!(told, *refusal, "{text}");
        assert_eq!(told_of(&octets).0, refusal.map(|(number, at)| (at, number)), "{text}");
    }
}

/// All that is handed back is of the inner request, by its place in the outermost octets; that of
/// the outer one is not compared and does not show.
#[test]
fn the_inner_request_is_the_message() {
    let read = |text: &str| request::read(&levels(text)).unwrap();
    let full = "10 01 07 S 52 1 2 3 4 5 6 40 02 20 00 50 02 A0 01";
    for (text, regtype, ksi, identity, security) in [
        ("H S 71 00 15 H S", 1, 3, 30..41, 43..45),
        ("G S 71 00 15 H S", 1, 3, 30..41, 43..45),
        ("H S 71 00 15 G S", 1, 7, 30..41, 43..45),
        ("H 71 00 15 H S S", 1, 3, 26..37, 39..41),
        ("H S 71 00 15 H S 71 00 15 G S", 1, 3, 30..41, 43..45),
        (&format!("H {full} 71 00 15 H S"), 1, 3, 48..59, 61..63),
        (&format!("H 71 00 15 G S {full}"), 1, 7, 26..37, 39..41),
        ("H S 71 00 13 7E 00 41 63 00 09 01 00 F1 10 F0 FF 00 00 07 S", 3, 6, 30..39, 41..43),
        ("H S 71 00 00 71 00 15 G S", 1, 3, 6..17, 19..21),
        ("H S 71 00 18 G S 71 00 00", 1, 7, 30..41, 43..45),
    ] {
        let read = read(text);
        assert_eq!((read.regtype, read.ksi), (regtype, ksi), "{text}");
        assert_eq!((read.identity, read.security), (identity, security), "{text}");
        let others = [read.capability, read.area, read.uplink, read.sessions];
        assert_eq!(others, [const { None }; 4], "{text}");
    }
    let inner = read(&format!("H S 71 00 27 H {full}"));
    assert_eq!(inner, read(&format!("H S 71 00 27 H {full} {full}")));
    assert_eq!((inner.identity, inner.security), (30..41, 46..48));
    assert_eq!((inner.capability, inner.area), (Some(43..44), Some(49..55)));
    assert_eq!((inner.uplink, inner.sessions), (Some(57..59), Some(61..63)));
}

/// How many octets the fixed part of a message has, by its type; what is not there counts as 0.
fn fixed(octets: &[u8]) -> usize {
    let at = |place: usize| octets.get(place).map_or(0, |&octet| octet as usize);
    match octets.get(2) {
        Some(0x41) => 6 + 256 * at(4) + at(5),
        Some(0x42) => 4 + at(3),
        Some(0x44) => 4,
        _ => 3,
    }
}

/// How many octets the element at a place has before its contents and in all; what is not there
/// counts as 0.
fn size(octets: &[u8], place: usize) -> (usize, usize) {
    let behind = |count: usize| octets.get(place + count).map_or(0, |&octet| octet as usize);
    match octets[place] {
        0x80..=0xFF => (1, 1),
        0x70..=0x7F => (3, 3 + 256 * behind(1) + behind(2)),
        0x52 if octets[2] == 0x41 => (1, 7),
        _ => (2, 2 + behind(1)),
    }
}

/// All faults of a message by R-1's sentences, each as its offset and number, for a call that
/// reads these types.
fn faults(octets: &[u8], types: &[u8]) -> Vec<(usize, u8)> {
    let length = octets.len();
    let mut all = vec![];
    if length < fixed(octets) {
        all.push((length, 13));
    }
    if length > 3 && octets[2] == 0x42 && octets[3] == 0 {
        all.push((3, 13));
    }
    if length > 0 && octets[0] != 0x7E {
        all.push((0, 14));
    }
    if length > 1 && octets[1] != 0x00 {
        all.push((1, 15));
    }
    if length > 2 && !types.contains(&octets[2]) {
        all.push((2, 16));
    }
    let mut place = fixed(octets);
    while place < length {
        let end = place + size(octets, place).1;
        if end > length {
            all.push((place, 17));
        }
        if octets[place] < 0x10 {
            all.push((place, 18));
        }
        place = end;
    }
    all
}

/// The contents of the first element with this identifier, if the message has them all.
fn first(octets: &[u8], identifier: u8) -> Option<Range<usize>> {
    let mut place = fixed(octets);
    while place < octets.len() {
        let (before, whole) = size(octets, place);
        if octets[place] == identifier {
            return (place + whole <= octets.len()).then_some(place + before..place + whole);
        }
        place += whole;
    }
    None
}

/// Whether a request without a fault keeps the layout at its own level.
fn keeps(octets: &[u8]) -> bool {
    let length = |identifier| first(octets, identifier).map_or(0, |part| part.len());
    let identity = match octets[6..fixed(octets)].first() {
        Some(0xF2) => 11..=11,
        Some(0x01) => 9..=64,
        _ => return false,
    };
    identity.contains(&(fixed(octets) - 6))
        && octets[3] < 0x80
        && [1, 2, 3].contains(&(octets[3] % 16))
        && length(0x10) < 14
        && [2, 3, 4, 5, 6, 7, 8].contains(&length(0x2E))
}

/// What the request reader has to tell, by R-3's sentences, as an offset and a number: of all
/// faults of the levels opened the lowest, then a third level, then a broken layout. And of
/// which level it tells, 0 the outer one; None tells of the one that is read.
fn told_of(octets: &[u8]) -> (Option<(usize, u8)>, usize) {
    let filled = |octets: &[u8]| first(octets, 0x71).filter(|part| !part.is_empty());
    let mut opened = vec![0..octets.len()];
    opened.extend(filled(octets));
    let mut all = vec![];
    for (level, part) in opened.iter().enumerate() {
        let own = faults(&octets[part.clone()], &[0x41]);
        all.extend(own.into_iter().map(|(at, number)| (part.start + at, number, level)));
    }
    if let Some((at, number, level)) = all.into_iter().min() {
        return (Some((at, number)), level);
    }
    if let [_, inner] = &opened[..] {
        if let Some(third) = filled(&octets[inner.clone()]) {
            return (Some((inner.start + third.start - 3, 19)), 1);
        }
    }
    let broken = opened.iter().position(|part| !keeps(&octets[part.clone()]));
    (broken.map(|_| (0, 3)), broken.unwrap_or(opened.len() - 1))
}

/// How often each was told: of messages by number and offset, of requests by number and level; 0
/// is none.
#[derive(Default)]
struct Counts {
    messages: BTreeMap<(u8, usize), usize>,
    requests: BTreeMap<(u8, usize), usize>,
}

impl Counts {
    /// Both readers tell the lowest of all faults, at a tie the lower number.
    fn hold(&mut self, octets: &[u8]) {
        let lowest = faults(octets, &[0x42, 0x44]).into_iter().min();
        let told = message::read(octets).err().map(|fault| (fault.at, fault.number));
        assert_eq!(told, lowest, "{octets:02X?}");
        *self.messages.entry(told.map_or((0, 0), |(at, number)| (number, at))).or_default() += 1;
        let (lowest, level) = told_of(octets);
        let told = request::read(octets).err().map(|fault| (fault.at, fault.number));
        assert_eq!(told, lowest, "{octets:02X?}");
        let number = told.map_or(0, |(_, number)| number);
        *self.requests.entry((number, level)).or_default() += 1;
    }

    /// Each number came often, and those without a fixed offset at so many offsets.
    fn seen(&self, least: usize, offsets: usize) {
        for number in [0, 13, 14, 15, 16, 17, 18] {
            let places = self.messages.range((number, 0)..(number + 1, 0));
            let times: usize = places.clone().map(|(_, times)| times).sum();
            assert!(times >= least, "{number}: {times} times");
            let varied = matches!(number, 13 | 17 | 18);
            assert!(!varied || places.clone().count() >= offsets, "{number}: {places:?}");
        }
    }

    /// So did each number of a request, of these levels; 19 is always of the inner one.
    fn seen_of_requests(&self, levels: Range<usize>, least: usize) {
        for (number, level) in [0, 3, 13, 14, 15, 16, 17, 18, 19]
            .into_iter()
            .flat_map(|number| levels.clone().map(move |level| (number, level)))
        {
            let times = self.requests.get(&(number, level)).copied().unwrap_or(0);
            let expected = if (number, level) == (19, 0) { 0 } else { least };
            assert!(times >= expected, "{number} of level {level}: {times} times");
        }
    }
}

/// Octets that matter.
const OCTETS: [u8; 13] =
    [0x00, 0x01, 0x02, 0x05, 0x10, 0x41, 0x42, 0x44, 0x52, 0x70, 0x71, 0x7E, 0x9F];

/// Octets, and behind them every message of at most so many more, of those that matter.
fn all_behind(octets: &mut Vec<u8>, more: usize, held: &mut dyn FnMut(&[u8])) {
    held(octets);
    if more == 0 {
        return;
    }
    for octet in OCTETS {
        octets.push(octet);
        all_behind(octets, more - 1, held);
        octets.pop();
    }
}

/// Every message of at most four octets, and every one of at most five behind a type.
#[test]
fn faults_of_short_messages() {
    let mut counts = Counts::default();
    all_behind(&mut vec![], 4, &mut |octets| counts.hold(octets));
    for kind in [0x41, 0x42, 0x44] {
        all_behind(&mut vec![0x7E, 0x00, kind], 5, &mut |octets| counts.hold(octets));
    }
    counts.seen(1000, 3);
}

/// The same in a container, by itself and behind the beginning of a request, within the layout
/// and not; behind the container more of the outer message.
#[test]
fn faults_of_short_containers() {
    let mut counts = Counts::default();
    for begun in ["", "7E 00 41", "7E 00 41 31 00 00", "H S"] {
        for (outer, behind) in [("H S", ""), ("H S", "9F"), ("H", "05"), ("H", "05 00"), ("G", "S")]
        {
            let (outer, behind) = (levels(outer), levels(behind));
            all_behind(&mut levels(begun), 4, &mut |inner| {
                counts.hold(&[&contained(&outer, inner)[..], &behind].concat());
            });
        }
    }
    counts.seen_of_requests(1..2, 50);
}

/// A request with all its elements at both levels, cut at each octet; and its containers longer
/// and shorter by some octets.
#[test]
fn nested_requests_cut() {
    let mut counts = Counts::default();
    let full = "10 01 07 S 52 1 2 3 4 5 6 40 02 20 00 50 02 A0 01";
    let whole = levels(&format!("H {full} 71 00 41 H {full} 71 00 17 H S 9F 9F 9F"));
    assert_eq!(request::read(&whole), Err(Fault { number: 19, at: 81 }));
    for length in 0..whole.len() {
        counts.hold(&whole[..length]);
        counts.hold(&contained(&levels("H S"), &whole[..length]));
        counts.hold(&[&contained(&levels("H S"), &whole[..length])[..], &[0x16]].concat());
    }
    for (outer, inner) in (0..=255).flat_map(|outer| (0..=255).map(move |inner| (outer, inner))) {
        let mut octets = whole.clone();
        (octets[41], octets[83]) = (outer, inner);
        counts.hold(&octets);
    }
    assert!(counts.requests[&(13, 1)] > 30 && counts.requests[&(17, 0)] > 30);
}

/// Requests in one another as they were made: what the innermost says, and where the containers
/// stand, from the outermost on.
struct Nest {
    octets: Vec<u8>,
    says: request::Request,
    containers: Vec<usize>,
}

impl Nest {
    /// As it says when it stands behind so many octets.
    fn behind(self, count: usize) -> (request::Request, Vec<usize>) {
        let part = |part: Range<usize>| part.start + count..part.end + count;
        let says = request::Request {
            regtype: self.says.regtype,
            ksi: self.says.ksi,
            identity: part(self.says.identity),
            capability: self.says.capability.map(part),
            security: part(self.says.security),
            area: self.says.area.map(part),
            uplink: self.says.uplink.map(part),
            sessions: self.says.sessions.map(part),
            additional: self.says.additional.map(part),
            status: self.says.status.map(part),
            attach: self.says.attach.map(part),
        };
        (says, self.containers.into_iter().map(|place| place + count).collect())
    }
}

/// Puts an element behind the octets; where its contents then lie.
fn append(octets: &mut Vec<u8>, identifier: u8, contents: &[u8]) -> Range<usize> {
    let [high, low] = (contents.len() as u16).to_be_bytes();
    octets.push(identifier);
    match identifier {
        0x70 | 0x71 | 0x77 => octets.extend([high, low]),
        0x52 | 0x9F => {}
        _ => octets.push(low),
    }
    octets.extend(contents);
    octets.len() - contents.len()..octets.len()
}

impl Draws {
    fn many(&mut self, count: u8) -> Vec<u8> {
        (0..count).map(|_| self.below(256)).collect()
    }

    fn some(&mut self, least: u8, most: u8) -> Vec<u8> {
        let count = least + self.below((most - least) as u64 + 1);
        self.many(count)
    }

    /// Octet 4 and identity of a request within the layout.
    fn head(&mut self) -> Vec<u8> {
        let suci = 9 + self.below(56);
        let (lead, length) = [(0xF2, 11), (0x01, suci)][self.below(2) as usize];
        let fourth = 16 * self.below(8) + 1 + self.below(3);
        let head = vec![0x7E, 0x00, 0x41, fourth, 0x00, length, lead];
        [head, self.many(length - 1)].concat()
    }

    /// A request within the layout, in its container as many more in one another: elements in
    /// any order, most of them there, some again behind all others, where they do not count.
    fn nest(&mut self, depth: usize) -> Nest {
        let mut octets = self.head();
        let mut parts = BTreeMap::from([(0, 6..octets.len())]);
        let mut inner = None;
        let mut kinds = vec![0x10, 0x2E, 0x52, 0x40, 0x50, 0x77, 0x2B, 0x70, 0x71, 0x9F];
        while !kinds.is_empty() {
            let kind = kinds.swap_remove(self.below(kinds.len() as u64) as usize);
            let needed = kind == 0x2E || kind == 0x71 && depth > 0;
            if !needed && self.below(3) == 0 {
                continue;
            }
            let contents = match kind {
                0x71 if depth > 0 => inner.insert(self.nest(depth - 1)).octets.clone(),
                0x10 => self.some(0, 13),
                0x2E => self.some(2, 8),
                0x52 => self.many(6),
                0x40 | 0x50 => self.some(0, 4),
                0x77 => [vec![[0xF2, 0xF6][self.below(4) as usize / 3]], self.some(8, 12)].concat(),
                0x2B | 0x70 => self.some(0, 3),
                _ => vec![],
            };
            parts.insert(kind, append(&mut octets, kind, &contents));
        }
        for kind in parts.keys().copied().filter(|&kind| kind >= 0x10) {
            if self.below(6) == 0 {
                let length = match kind {
                    0x52 => 6,
                    0x9F => 0,
                    _ => 9,
                };
                append(&mut octets, kind, &self.many(length));
            }
        }
        nest_of(octets, parts, inner)
    }

    /// An element of any format, some of them long.
    fn element(&mut self) -> Vec<u8> {
        let length = self.below(6);
        let (head, length) = match self.below(12) {
            0 => (vec![self.below(16), length], length as usize),
            1 => (vec![0x52], 6),
            2 | 3 => (vec![0x80 | self.below(128)], 0),
            4 | 5 => (vec![0x70 | self.below(16), 0, length], length as usize),
            6 => (vec![0x70 | self.below(16), 1, length], 256 + length as usize),
            _ => (vec![0x10 + self.below(0x60), length], length as usize),
        };
        let contents = (0..length).map(|_| self.below(256));
        head.into_iter().chain(contents).collect()
    }

    /// Octets whole or damaged: cut, or an octet changed, at the front or anywhere.
    fn damaged(&mut self, mut octets: Vec<u8>) -> Vec<u8> {
        let count = octets.len();
        let anywhere = (256 * self.below(256) as usize + self.below(256) as usize) % count;
        match self.below(6) {
            0 => octets.truncate(anywhere),
            1 => octets.truncate(anywhere % 8),
            2 => octets[anywhere] = self.below(256),
            3 => octets[anywhere % 4] = self.below(256),
            _ => {}
        }
        octets
    }

    /// A message of a type that one of the readers reads, whole or damaged.
    fn octets(&mut self) -> Vec<u8> {
        let length = 1 + self.below(12);
        let (mut octets, length) = match self.below(3) {
            0 => (vec![0x7E, 0x00, 0x41, 0x71, 0x00, length], length),
            1 => (vec![0x7E, 0x00, 0x42, length], length),
            _ => (vec![0x7E, 0x00, 0x44], 1),
        };
        octets.extend((0..length).map(|_| self.below(256)));
        for _ in 0..self.below(7) {
            octets.extend(self.element());
        }
        self.damaged(octets)
    }

    /// Requests in one another, whole or damaged: the inner ones, and then all of it.
    fn levels(&mut self) -> Vec<u8> {
        let depth = self.below(4) as usize;
        let mut inner = self.nest(depth).octets;
        if self.below(4) == 0 {
            return self.damaged(inner);
        }
        if self.below(4) == 0 {
            inner.extend(self.element());
        }
        let mut octets = self.head();
        if self.below(8) > 0 {
            append(&mut octets, 0x2E, &[0xF0, 0xF0]);
        }
        append(&mut octets, 0x71, &self.damaged(inner));
        for _ in 0..self.below(3) {
            octets.extend(self.element());
        }
        match self.below(4) {
            0 => self.damaged(octets),
            _ => octets,
        }
    }
}

/// What was made of these octets: where the first of each kind lies, the identity under 0, and
/// what stands in the container.
fn nest_of(octets: Vec<u8>, parts: BTreeMap<u8, Range<usize>>, inner: Option<Nest>) -> Nest {
    let container = parts.get(&0x71).map_or(0, |part| part.start);
    if let Some(inner) = inner {
        let (says, mut containers) = inner.behind(container);
        containers.insert(0, container - 3);
        return Nest { octets, says, containers };
    }
    let part = |kind, least| parts.get(&kind).cloned().filter(|part| part.len() >= least);
    let front = |kind, count| part(kind, count).map(|part| part.start..part.start + count);
    let says = request::Request {
        regtype: octets[3] % 16,
        ksi: octets[3] / 16,
        identity: parts[&0].clone(),
        capability: part(0x10, 1),
        security: parts[&0x2E].clone(),
        area: part(0x52, 6),
        uplink: front(0x40, 2),
        sessions: front(0x50, 2),
        additional: front(0x77, 11).filter(|part| octets[part.start] == 0xF2),
        status: front(0x2B, 1),
        attach: part(0x70, 1),
    };
    Nest { octets, says, containers: vec![] }
}

/// Requests with none, one, two and three more in one another: the first two are read as they
/// were made, of the others the third level is told at its container.
#[test]
fn nested_requests_at_random() {
    let mut draws = Draws(3);
    for depth in (0..4).cycle().take(4000) {
        let Nest { octets, says, containers } = draws.nest(depth);
        assert_eq!(containers.len(), depth);
        let expected = match containers.get(1) {
            Some(&at) => Err(Fault { number: 19, at }),
            None => Ok(says),
        };
        assert_eq!(request::read(&octets), expected, "{octets:02X?}");
    }
}

#[test]
fn faults_of_messages_at_random() {
    let mut draws = Draws(2);
    let mut counts = Counts::default();
    for _ in 0..400_000 {
        counts.hold(&draws.octets());
    }
    counts.seen(4000, 40);
    for _ in 0..200_000 {
        counts.hold(&draws.levels());
    }
    counts.seen_of_requests(0..2, 1000);
}

// Request R-6: a network that asks for time.

/// Draws that are at no end of their ranges.
const DRAWN: Drawn = Drawn { t3247: 2000, t3346: 1000 };
/// T3346 of 60 s.
const MINUTE: &[u8] = &[0x5F, 0x01, 0x21];

/// Elements of a reject that give a time to wait, and its seconds.
const TIMES: &[(&[u8], u16)] = &[
    (MINUTE, 60),
    (&[0x5F, 0x01, 0x01], 2),
    (&[0x5F, 0x01, 0x1F], 62),
    (&[0x5F, 0x01, 0x3F], 1860),
    (&[0x5F, 0x01, 0x41], 360),
    (&[0x5F, 0x01, 0x5F], 11160),
    (&[0x5F, 0x01, 0x61], 60),
    (&[0x5F, 0x01, 0xDF], 1860),
    // Of a reject 16 is not known.
    (&[0x5F, 0x01, 0x2F, 0x16, 0x01, 0x3F], 900),
    (&[0x16, 0x01, 0x3F, 0x5F, 0x01, 0x2F], 900),
    (&[0x9F, 0x70, 0x00, 0x01, 0x00, 0x5F, 0x01, 0x22], 120),
    // Further octets are ignored, and so is a second element.
    (&[0x5F, 0x02, 0x21, 0xE0], 60),
    (&[0x5F, 0x04, 0x22, 0x00, 0x00, 0x00], 120),
    (&[0x5F, 0x01, 0x21, 0x5F, 0x01, 0x22], 60),
    (&[0x5F, 0x01, 0x21, 0x5F, 0x01, 0xE0], 60),
    (&[0x5F, 0x01, 0x21, 0x5F, 0x01, 0x00], 60),
    (&[0x5F, 0x01, 0x21, 0x5F, 0x00], 60),
];

/// Elements of a reject that give none.
const NO_TIME: &[&[u8]] = &[
    &[],
    &[0x5F, 0x00],
    // Zero.
    &[0x5F, 0x01, 0x00],
    &[0x5F, 0x01, 0x20],
    &[0x5F, 0x01, 0x40],
    &[0x5F, 0x01, 0x60],
    &[0x5F, 0x01, 0xC0],
    // Deactivated.
    &[0x5F, 0x01, 0xE0],
    &[0x5F, 0x01, 0xE5],
    &[0x5F, 0x01, 0xFF],
    // The first counts, even where it reads as absent; of its octets the first alone.
    &[0x5F, 0x00, 0x5F, 0x01, 0x21],
    &[0x5F, 0x01, 0x00, 0x5F, 0x01, 0x21],
    &[0x5F, 0x01, 0xE0, 0x5F, 0x01, 0x21],
    &[0x5F, 0x02, 0x00, 0x21],
    // Other elements.
    &[0x16, 0x01, 0x21],
    &[0x5E, 0x01, 0x21],
    &[0x16, 0x03, 0x5F, 0x01, 0x21],
];

fn reject_with(record: &mut Record, a: usize, protected: u8, cause: u8, elements: &[u8]) -> Reply {
    let octets = [&[0x7E, 0x00, 0x44, cause], elements].concat();
    record.message(a as u8, protected, DRAWN, &octets)
}

/// A taken reject's reply that starts T3346.
fn waits(a: usize, seconds: u16) -> Reply {
    reply(a, false, Some((T3346, seconds.into())))
}

/// The reply of T3346 out.
fn waited(a: usize) -> Reply {
    let mut reply = Reply::of(0);
    reply.timers[T3346 + a] = Change::Stopped;
    reply.restart = Some(a as u8);
    reply
}

/// State 4 on each access by a start and by updates of both types, each with and without
/// protection.
fn pendings() -> impl Iterator<Item = (usize, u8, Record)> {
    (0..12).map(|case: usize| {
        let (a, protected, regtype) = (case % 2, (case / 2 % 2) as u8, (case / 4) as u8 + 1);
        let mut record = if regtype == 1 { pending(a, AWAY) } else { updating(a, AWAY) };
        record.access[a].regtype = regtype;
        (a, protected, record)
    })
}

/// The record with more that a reject could change: entries, lists, a fifth attempt, and all
/// timers but T3346 and T3510 as they may run in a record handed in.
fn laden(mut record: Record) -> Record {
    let entry = Entry { network: AWAY.into(), ban: 2, n1: 1, forbidden: true, n1_barred: true };
    for access in &mut record.access {
        hold(access, entry);
        (access.t3511, access.t3502, access.attempts, access.status) = (true, true, 5, 3);
    }
    record.roaming.push(Listed { area: area(AWAY), protected: true });
    record.regional.push(Listed { area: area(HOME), protected: false });
    (record.t3247, record.t3512, record.due) = (true, true, true);
    record
}

/// What a reject with these elements says.
fn rejected(cause: u8, elements: &[u8]) -> Reject {
    match message::read(&[&[0x7E, 0x00, 0x44, cause], elements].concat()) {
        Ok(Message::Reject(reject)) => reject,
        _ => panic!("a reject"),
    }
}

#[test]
fn t3346_in_rejects() {
    for cause in [22, 11, 0, 255] {
        for &(elements, seconds) in TIMES {
            let said = Reject { cause, t3346: Some(seconds) };
            assert_eq!(rejected(cause, elements), said, "{elements:02X?}");
        }
        for elements in NO_TIME {
            let said = Reject { cause, t3346: None };
            assert_eq!(rejected(cause, elements), said, "{elements:02X?}");
        }
    }
}

/// Cause 22 with a time: attempt counter 0, 5U2, state 3 or 5, T3510 stops, T3346 runs for the
/// time given or the one drawn, and nothing else changes.
#[test]
fn a_network_that_asks_for_time() {
    let both = |(a, protected, record)| [(a, protected, record), (a, protected, laden(record))];
    for (a, protected, record) in pendings().flat_map(both) {
        let mut after = record;
        let this = &mut after.access[a];
        this.state = if this.regtype == 1 { 3 } else { 5 };
        (this.status, this.attempts, this.t3510, this.t3346) = (2, 0, false, true);
        for &(elements, given) in TIMES {
            let mut record = record;
            let got = reject_with(&mut record, a, protected, 22, elements);
            let seconds = if protected == 1 { given } else { 1000 };
            assert_eq!(got, waits(a, seconds), "{elements:02X?}");
            assert_eq!(text(&record), text(&after));
            valid(&record);
        }
    }
}

/// Without a time, as T3510 out: also at the last attempt.
#[test]
fn a_network_that_asks_for_no_time() {
    for (a, protected, record) in pendings() {
        for (case, elements) in NO_TIME.iter().cycle().take(3 * NO_TIME.len()).enumerate() {
            let mut rejected = record;
            rejected.access[a].attempts = [2, 4, 5][case / NO_TIME.len()];
            let mut failed = rejected;
            let expected = out(&mut failed, 1, a as u8);
            assert_eq!(reject_with(&mut rejected, a, protected, 22, elements), expected);
            assert_eq!(text(&rejected), text(&failed), "{elements:02X?}");
            assert!(!rejected.access[a].t3346);
        }
    }
}

/// Any other cause with a time is as without.
#[test]
fn other_causes_do_not_ask_for_time() {
    for (a, protected, record) in pendings() {
        for cause in (0..=255).filter(|&cause| cause != 22) {
            let (mut with, mut without) = (record, record);
            let reply = reject_with(&mut with, a, protected, cause, MINUTE);
            assert_eq!(reply, reject_with(&mut without, a, protected, cause, &[]), "{cause}");
            assert_eq!(reply.answer, 0);
            assert_eq!(text(&with), text(&without), "{cause}");
            assert!(!with.access[a].t3346);
        }
    }
}

/// Cause 22 needs no entry, and the two-access rule does not name it.
#[test]
fn a_time_to_wait_is_always_taken() {
    for (a, protected, mut record) in pendings() {
        for index in 1..=16 {
            hold(&mut record.access[a], new([index % 10, 0, index / 10]));
        }
        record.access[1 - a].state = 5;
        assert_eq!(reject_with(&mut record, a, protected, 27, MINUTE).answer, 4);
        assert_eq!(reject_with(&mut record, a, 0, 3, MINUTE).answer, 2);
        assert_eq!(reject_with(&mut record, a, protected, 22, MINUTE).answer, 0);
        assert!(record.access[a].t3346 && !record.access[1 - a].t3346);
    }
}

/// Of the range, then 5 and 6, then 20, before 7, 8 and 9; manual or not.
#[test]
fn starts_while_t3346_runs() {
    let mut record = thrice_refused();
    record.access[0].t3346 = true;
    let refused = |record: &mut Record, manual: u8, network: Network, answer: u8| {
        let before = text(record);
        assert_eq!(record.start(0, manual, area(network)), Reply::of(answer));
        assert_eq!(text(record), before);
    };
    for (state, answer) in [(0, 5), (1, 20), (2, 20), (4, 6), (5, 6), (6, 20), (3, 20)] {
        record.access[0].state = state;
        for (manual, network) in [(0, AWAY), (1, AWAY), (0, NEAR), (1, HOME)] {
            refused(&mut record, manual, network, answer);
        }
        refused(&mut record, 2, AWAY, 1);
        refused(&mut record, 0, [0x0A, 0xF2, 0x20], 1);
    }
    record.access[0].t3346 = false;
    refused(&mut record, 0, AWAY, 7);
    record.access[1].state = 5;
    refused(&mut record, 0, AWAY, 8);
    record.access[0].t3346 = true;
    refused(&mut record, 0, AWAY, 20);
    record.access[0].entries.clear();
    refused(&mut record, 1, AWAY, 20);
    record.access[0].t3346 = false;
    refused(&mut record, 1, AWAY, 9);
    assert_eq!(start(&mut record, 0, NEAR), 0);
}

/// Of the range, then 6, also where a periodic one is not due, then 20, before 7, 8 and 9.
#[test]
fn updates_while_t3346_runs() {
    let mut record = thrice_refused();
    record.access[0].t3346 = true;
    refused_update(&mut record, 1, 1);
    refused_update(&mut record, 3, 6);
    refused_update(&mut record, 2, 20);
    record.due = true;
    refused_update(&mut record, 3, 20);
    assert_eq!(record.update(0, 2, area(NEAR), [[0x01, 0x00]; 2]), Reply::of(1));
    assert_eq!(record.update(0, 2, area(NEAR), MOVED), Reply::of(20));
    for state in [0, 1, 2, 3, 4, 6] {
        record.access[0].state = state;
        refused_update(&mut record, 2, 6);
        refused_update(&mut record, 3, 6);
    }
    record.access[0].state = 5;
    record.access[0].t3346 = false;
    refused_update(&mut record, 2, 7);
    record.access[1].state = 5;
    refused_update(&mut record, 3, 8);
    record.access[0].entries.clear();
    refused_update(&mut record, 2, 9);
    assert_eq!(update(&mut record, 0, 2, NEAR), 0);
}

/// In an update: 6 comes before 20.
#[test]
fn a_wait_in_an_update() {
    let mut record = registered(0, AWAY);
    assert_eq!(update(&mut record, 0, 2, AWAY), 0);
    assert_eq!(reject_with(&mut record, 0, 1, 22, MINUTE), waits(0, 60));
    assert_eq!(states(&record), (5, 1));
    assert_eq!(update(&mut record, 0, 3, AWAY), 6);
    assert_eq!(update(&mut record, 0, 2, AWAY), 20);
    assert_eq!(start(&mut record, 0, AWAY), 6);
    // Access 0 is registered all the while.
    assert_eq!(start(&mut record, 1, AWAY), 0);
    assert_eq!(reject(&mut record, 1, 0, 3).answer, 2);
    assert_eq!(out(&mut record, 6, 0), waited(0));
    assert_eq!(states(&record), (5, 4));
    assert_eq!(update(&mut record, 0, 2, NEAR), 0);
    assert_eq!(accept(&mut record, 0), 0);
}

/// In a start: then nothing but T3346 out lets it be tried again.
#[test]
fn a_wait_in_a_start() {
    let mut record = limited(3);
    for attempts in 1..=4 {
        assert_eq!(start(&mut record, 0, AWAY), 0);
        assert_eq!(out(&mut record, 1, 0).answer, 0);
        assert_eq!(record.access[0].attempts, attempts);
    }
    assert_eq!(start(&mut record, 0, AWAY), 0);
    assert_eq!(reject_with(&mut record, 0, 0, 22, MINUTE), waits(0, 1000));
    let before = text(&record);
    assert_eq!(start(&mut record, 0, AWAY), 20);
    assert_eq!(record.start(0, 1, area(NEAR)), Reply::of(20));
    assert_eq!(update(&mut record, 0, 2, AWAY), 6);
    assert_eq!(record.key(0, 1), Reply::of(6));
    assert_eq!(reject_with(&mut record, 0, 0, 22, MINUTE), Reply::of(6));
    for (number, a) in [(1, 0), (2, 0), (3, 0), (6, 1)] {
        assert_eq!(out(&mut record, number, a), Reply::of(11));
    }
    assert_eq!(text(&record), before);
    assert_eq!(out(&mut record, 6, 0), waited(0));
    assert_eq!(out(&mut record, 6, 0), Reply::of(11));
    assert_eq!(start(&mut record, 0, AWAY), 0);
    assert_eq!(out(&mut record, 1, 0), reply(0, false, RETRY));
    assert_eq!(record.access[0].attempts, 1);
}

/// Each access has its own T3346.
#[test]
fn a_wait_on_one_access() {
    for (a, b) in [(0, 1), (1, 0)] {
        let (this, other) = (a as u8, b as u8);
        let mut record = limited(3);
        assert_eq!(start(&mut record, this, AWAY), 0);
        assert_eq!(reject_with(&mut record, a, 1, 22, MINUTE), waits(a, 60));
        assert_eq!(start(&mut record, other, AWAY), 0);
        assert_eq!(reject_with(&mut record, b, 0, 22, MINUTE), waits(b, 1000));
        assert_eq!(states(&record), (3, 3));
        assert_eq!(out(&mut record, 6, this), waited(a));
        assert_eq!(start(&mut record, this, AWAY), 0);
        assert_eq!(start(&mut record, other, AWAY), 20);
        assert_eq!(out(&mut record, 6, other), waited(b));
        assert_eq!(start(&mut record, other, AWAY), 7);
        register(&mut record, other, NEAR);
        record.access[a].t3346 = true;
        assert_eq!(update(&mut record, other, 2, NEAR), 0);
    }
}

/// T3346 out in each state: it stops, a restart of its access is asked, nothing else changes.
#[test]
fn t3346_out() {
    for (a, state) in (0..14).map(|case| (case % 2, case as u8 / 2)) {
        let mut record = laden(limited(3));
        record.access[a].state = state;
        record.access[1 - a].t3346 = true;
        assert_eq!(out(&mut record, 6, a as u8), Reply::of(11));
        let after = text(&record);
        record.access[a].t3346 = true;
        assert_eq!(out(&mut record, 6, a as u8), waited(a));
        assert_eq!(text(&record), after);
        assert_eq!((record.access[a].state, record.access[a].attempts), (state, 5));
    }
}

#[test]
fn power_and_card_stop_t3346() {
    for running in [[true, true], [true, false], [false, true], [false, false]] {
        let mut record = limited(3);
        let mut expected = Reply::of(0);
        for a in (0..2).filter(|&a| running[a]) {
            record.access[a].t3346 = true;
            expected.timers[T3346 + a] = Change::Stopped;
        }
        let (mut carded, mut bare) = (record, record);
        bare.card = false;
        (bare.access[0].state, bare.access[1].state) = (0, 0);
        for record in [&mut carded, &mut bare] {
            assert_eq!(record.power(), expected);
            assert!(record.access.iter().all(|access| !access.t3346));
            assert_eq!(start(record, 0, AWAY), if record.card { 0 } else { 5 });
        }
        assert_eq!(record.card(1, HOME, &SUCI), expected);
        assert_eq!(text(&record), text(&limited(3)));
        assert_eq!((start(&mut record, 0, AWAY), start(&mut record, 1, NEAR)), (0, 0));
    }
}

/// Of records handed in, T3346 running in state 4: a time to wait starts it again, and no other
/// message, nor T3510 out, names it.
#[test]
fn a_running_t3346_of_a_record_handed_in() {
    for (a, protected, mut record) in pendings() {
        record.access[a].t3346 = true;
        let [mut again, mut accepted, mut failed, mut rejected, mut barred] = [record; 5];
        let seconds = if protected == 1 { 60 } else { 1000 };
        assert_eq!(reject_with(&mut again, a, protected, 22, MINUTE), waits(a, seconds));
        for reply in [
            accept_with(&mut accepted, a as u8, &[]),
            out(&mut failed, 1, a as u8),
            reject_with(&mut rejected, a, protected, 22, &[]),
            reject_with(&mut barred, a, protected, 11, MINUTE),
        ] {
            assert_eq!((reply.answer, reply.timers[T3346 + a]), (0, Change::Left));
        }
        for record in [again, accepted, failed, rejected, barred] {
            assert!(record.access[a].t3346);
        }
    }
}

/// The second draw, 900 to 1800 s, is checked before the state and the octets, used or not.
#[test]
fn second_draws() {
    let wait = [&[0x7E, 0x00, 0x44, 0x16], MINUTE].concat();
    let messages: [&[u8]; 6] = [
        &wait,
        &wait[..4],
        &[0x7E, 0x00, 0x44, 0x0B],
        &[0x7E, 0x00, 0x42, 0x01, 0x01],
        &wait[..5],
        &[],
    ];
    for (octets, protected) in messages.iter().flat_map(|octets| [(octets, 0), (octets, 1)]) {
        let mut record = pending(0, AWAY);
        let before = text(&record);
        for t3346 in [0, 899, 1801, 65535] {
            for a in 0..2 {
                let drawn = Drawn { t3247: 1800, t3346 };
                assert_eq!(record.message(a, protected, drawn, octets), Reply::of(1));
            }
        }
        assert_eq!(text(&record), before);
        for t3346 in [900, 1800] {
            let mut heard = record;
            let reply = heard.message(0, protected, Drawn { t3247: 3600, t3346 }, octets);
            assert_ne!(reply.answer, 1);
            let used = octets.len() == wait.len() && protected == 0;
            assert_eq!(reply.timers[T3346] == Change::Started(t3346.into()), used);
            let drawn = Drawn { t3247: 3601, t3346 };
            assert_eq!(record.message(0, protected, drawn, octets), Reply::of(1));
        }
    }
}

/// Kind 8 of the log: two draws, low octet first, before the message; kind 3 stands for 900.
#[test]
fn second_draws_in_logs() {
    let whole = octets("08 00 00 00 D0 07 E8 03 7E 00 44 16 5F 01 21");
    for length in 2..8 {
        assert_eq!(apply(&mut pending(0, AWAY), &whole[..length]), Reply::of(1));
    }
    for (text_of, expected) in [
        ("08 00 00 00 D0 07 E8 03 7E 00 44 16 5F 01 21", waits(0, 1000)),
        ("08 00 00 00 D0 07 84 03 7E 00 44 16 5F 01 21", waits(0, 900)),
        ("08 00 00 00 D0 07 08 07 7E 00 44 16 5F 01 21", waits(0, 1800)),
        ("08 00 00 01 D0 07 08 07 7E 00 44 16 5F 01 21", waits(0, 60)),
        ("03 00 00 00 D0 07 7E 00 44 16 5F 01 21", waits(0, 900)),
        ("03 00 00 01 D0 07 7E 00 44 16 5F 01 21", waits(0, 60)),
        ("08 00 00 00 08 07 E8 03 7E 00 44 0C", reply(0, true, None)),
        ("08 00 00 00 D0 07 83 03 7E 00 44 16 5F 01 21", Reply::of(1)),
        ("08 00 00 00 D0 07 09 07 7E 00 44 16 5F 01 21", Reply::of(1)),
        ("08 00 00 00 E8 03 D0 07 7E 00 44 16 5F 01 21", Reply::of(1)),
        ("08 00 00 00 D0 07 03 E8 7E 00 44 16 5F 01 21", Reply::of(1)),
        ("08 00 00 00 07 07 E8 03 7E 00 44 0B", Reply::of(1)),
        ("08 00 02 00 D0 07 E8 03 7E 00 44 0B", Reply::of(1)),
        ("08 00 00 02 D0 07 E8 03 7E 00 44 0B", Reply::of(1)),
        ("08 01 00 00 D0 07 E8 03 7E 00 44 0B", Reply::of(1)),
        ("08 00 01 00 D0 07 E8 03 7E 00 44 0B", Reply::of(6)),
        ("08 00 00 00 D0 07 E8 03", faulty(13, 0)),
        ("08 00 00 00 D0 07 E8 03 7E 00 44 0B 9F 05", faulty(17, 5)),
        ("08 00 00 00 D0 07 E8 03 7E 00 42 01 01", Reply::of(10)),
    ] {
        assert_eq!(apply(&mut pending(0, AWAY), &octets(text_of)), expected, "{text_of}");
    }
}

/// Timer 6 of the log, and the answer 20 in it.
#[test]
fn waits_in_logs() {
    let mut record = limited(3);
    for (text_of, answer, after) in [
        ("02 00 01 00 00 F2 20 00 00 2A", 0, (1, 4)),
        ("08 00 01 01 08 07 84 03 7E 00 44 16 5F 01 2F 16 01 3F", 0, (1, 3)),
        ("02 00 01 01 00 F2 20 00 00 2A", 20, (1, 3)),
        ("04 00 06 00", 11, (1, 3)),
        ("02 00 00 00 00 F2 20 00 00 2A", 0, (4, 3)),
        ("03 00 00 01 08 07 7E 00 42 01 01", 0, (5, 3)),
        ("07 00 00 02 00 F2 20 00 00 2A 00 00 00 00", 0, (4, 3)),
        ("03 00 00 00 08 07 7E 00 44 16 5F 01 2F", 0, (5, 3)),
        ("07 00 00 03 00 F2 20 00 00 2A 00 00 00 00", 6, (5, 3)),
        ("07 00 00 02 00 F2 20 00 00 2A 00 00 00 00", 20, (5, 3)),
        ("04 00 06 01", 0, (5, 3)),
        ("04 00 06 01", 11, (5, 3)),
        ("02 00 01 00 00 F2 20 00 00 2A", 0, (5, 4)),
        ("04 00 06 00", 0, (5, 4)),
        ("07 00 00 02 00 F2 20 00 00 2A 00 00 00 00", 7, (5, 4)),
    ] {
        assert_eq!(apply(&mut record, &octets(text_of)).answer, answer, "{text_of}");
        assert_eq!(states(&record), after, "{text_of}");
    }
}

/// T3502: deactivated is as absent, 720 s, and zero is 0 s, which T3502 then runs for.
#[test]
fn the_length_of_t3502() {
    for (elements, length) in [
        (&[][..], 720),
        (&[0x16, 0x00], 720),
        (&[0x16, 0x01, 0xE0], 720),
        (&[0x16, 0x01, 0xE5], 720),
        (&[0x16, 0x01, 0xFF], 720),
        (&[0x16, 0x01, 0xE5, 0x16, 0x01, 0x00], 720),
        (&[0x16, 0x01, 0x00], 0),
        (&[0x16, 0x01, 0x20], 0),
        (&[0x16, 0x01, 0x40], 0),
        (&[0x16, 0x01, 0xC0], 0),
        (&[0x16, 0x01, 0x00, 0x16, 0x01, 0x3F], 0),
        (&[0x16, 0x01, 0x01], 2),
        // Of an accept 5F is not known.
        (&[0x5F, 0x01, 0x21, 0x16, 0x01, 0x3F], 1860),
    ] {
        let mut record = limited(3);
        assert_eq!(start(&mut record, 1, AWAY), 0);
        let reply = accept_with(&mut record, 1, elements);
        assert_eq!((reply.answer, reply.timers[T3346 + 1]), (0, Change::Left));
        assert_eq!(record.access[1].t3502_length, length, "{elements:02X?}");
        assert_eq!(update(&mut record, 1, 2, AWAY), 0);
        let started = reject(&mut record, 1, 0, 111).timers[T3502 + 1];
        assert_eq!(started, Change::Started(length.into()), "{elements:02X?}");
    }
}

/// The line of `--full` with T3346.
#[test]
fn full_line_of_a_wait() {
    let mut record = limited(3);
    assert_eq!(start(&mut record, 1, AWAY), 0);
    let reply = reject_with(&mut record, 1, 0, 22, MINUTE);
    let mut line = String::new();
    crate::full::reply(&mut line, &reply);
    crate::full::record(&mut line, &record);
    let parts = [
        "= 0 at 0 T3510 left stopped T3511 left left T3502 left left T3346 left started:1000 \
         T3247 left T3512 left restart - leave - update -",
        "card 1 home 00f110 suci 0100f110f0ff000007 limits 3 3 3 cap 00 sec f0f0 edition 1 \
         T3247 0 T3512 0 length 3240 due 0 roaming - regional -",
        "0 state 1 status 2 attempts 0 T3510 0 T3511 0 T3502 0 length 720 T3346 0 \
         pending 000000000000 type 1 uplink 0000 sessions 0000 guti - last - ksi 7 \
         equivalents - cards 0 entries -",
        "1 state 3 status 2 attempts 0 T3510 0 T3511 0 T3502 0 length 720 T3346 1 \
         pending 00f22000002a type 1 uplink 0000 sessions 0000 guti - last - ksi 7 \
         equivalents - cards 0 entries -",
    ];
    assert_eq!(line, parts.join(" | "));
    let mut line = String::new();
    crate::full::reply(&mut line, &out(&mut record, 6, 1));
    assert!(line.contains(" T3346 left stopped T3247 left ") && line.contains(" restart 1 "));
}

/// The program's own lines, as many as fill its buffer more than once: answers of one and of two
/// digits, and the count as it grows.
#[test]
fn lines_of_events() {
    let mut record = pending(1, AWAY);
    let mut output = crate::Output::new(vec![]);
    let mut count = crate::Count::new();
    let mut lines = String::new();
    for number in 1..=12_000 {
        let answer = (number % 23) as u8;
        record.t3247 = number % 2 == 0;
        count.up();
        output.event(&count, answer, &record).unwrap();
        lines.push_str(&format!("{number} {answer} 1 4 {}\n", record.t3247 as u8));
    }
    output.flush().unwrap();
    assert_eq!(String::from_utf8(output.sink).unwrap(), lines);
}

// Request R-14: a protected 27 counts on both accesses.

/// Each differs from AWAY in one octet alone.
const ALIKE: [Network; 3] = [NEAR, [0x00, 0x12, 0x20], [0x00, 0xF2, 0x21]];

fn sixteen() -> [Network; 16] {
    std::array::from_fn(|index| [(index / 10 << 4 | index % 10) as u8, 0, 0])
}

/// Entries of these networks with both marks, their counters above 0 and below the limits.
fn held(networks: &[Network]) -> List<Entry, 16> {
    let mut entries = List::new();
    for &network in networks {
        entries.push(Entry {
            network: network.into(),
            ban: 2,
            n1: 1,
            forbidden: true,
            n1_barred: true,
        });
    }
    entries
}

/// The record with an N1 limit unlike the others, and with the other access registering on NEAR,
/// its entries those of `networks`.
fn beside(a: usize, mut record: Record, networks: &[Network]) -> Record {
    record.limits.n1 = 4;
    assert_eq!(start(&mut record, 1 - a as u8, NEAR), 0);
    table(&mut record.access[1 - a], &held(networks));
    record
}

/// Those of `pendings` whose message is protected.
fn protected() -> impl Iterator<Item = (usize, Record)> {
    pendings().filter(|&(_, protected, _)| protected == 1).map(|(a, _, record)| (a, record))
}

/// The access asks for AWAY and a reject bars it.
fn barred(record: &mut Record, a: usize, protected: u8, cause: u8) {
    assert_eq!(start(record, a as u8, AWAY), 0);
    assert_eq!(reject(record, a as u8, protected, cause).answer, 0);
}

/// Whatever the network's entry on the other access was: its N1 counter goes to the limit, and
/// nothing else of that access changes. At home and away.
#[test]
fn a_protected_27_counts_on_both_accesses() {
    for (a, record) in protected() {
        let mut record = beside(a, record, &[ALIKE[0], AWAY, ALIKE[1], ALIKE[2]]);
        for (ban, n1, forbidden, n1_barred) in [
            (0, 0, false, false),
            (1, 0, true, false),
            (0, 1, false, true),
            (2, 3, true, false),
            (3, 4, true, true),
        ] {
            let entry = Entry { network: AWAY.into(), ban, n1, forbidden, n1_barred };
            record.access[1 - a].entries[1] = entry;
            for home in [HOME, AWAY] {
                let mut after = Record { home, ..record };
                assert_eq!(reject(&mut after, a as u8, 1, 27), reply(a, false, None));
                assert_eq!(shown(&after, a), "2 5U3 a0 - eq1 c11 e[04-N] r[] g[]");
                let mut expected = after;
                expected.access[1 - a] = record.access[1 - a];
                expected.access[1 - a].entries[1].n1 = 4;
                assert_eq!(text(&after), text(&expected));
            }
        }
    }
}

/// No other cause, and no unprotected reject, changes an entry of the other access.
#[test]
fn other_rejects_count_on_one_access() {
    for (a, protected, record) in pendings() {
        let record = beside(a, record, &[NEAR, AWAY]);
        for cause in (0..=255).filter(|&cause| (cause, protected) != (27, 1)) {
            let mut after = record;
            assert_eq!(reject(&mut after, a as u8, protected, cause).answer, 0);
            let what = format!("cause {cause} access {a} protected {protected}");
            assert_eq!(marks_of(&after, 1 - a), marks_of(&record, 1 - a), "{what}");
        }
    }
}

/// The other access has no entry for the network: none is made, nor missed if all are held.
#[test]
fn a_protected_27_needs_no_entry_on_the_other_access() {
    for (a, record) in protected() {
        for networks in [&[][..], &ALIKE, &sixteen()] {
            let mut record = beside(a, record, networks);
            let other = record.access[1 - a];
            assert_eq!(reject(&mut record, a as u8, 1, 27), reply(a, false, None));
            assert_eq!(marks_of(&record, a), [(0, 4, false, true)]);
            let mut same = record;
            same.access[1 - a] = other;
            assert_eq!(text(&record), text(&same));
        }
    }
}

/// All entries of the receiving access are held: answer 4 without one for the network, and then
/// the other access's stays; with one, though it be at the limit, both count.
#[test]
fn a_protected_27_that_is_not_taken_counts_nowhere() {
    for (a, record) in protected() {
        let mut record = beside(a, record, &[AWAY]);
        table(&mut record.access[a], &held(&sixteen()));
        let before = text(&record);
        assert_eq!(reject(&mut record, a as u8, 1, 27), Reply::of(4));
        assert_eq!(text(&record), before);
        record.access[a].entries[15] = Entry { network: AWAY.into(), n1: 4, ..Entry::default() };
        assert_eq!(reject(&mut record, a as u8, 1, 27), reply(a, false, None));
        assert_eq!(marks_of(&record, 1 - a), [(2, 4, true, true)]);
    }
}

/// An N1 mark below the limit on the other access stays, and T3247 no longer lifts it. A power
/// cycle does; the counter is then at the limit for the next mark.
#[test]
fn t3247_lifts_no_mark_that_a_protected_27_counted_to_the_limit() {
    for (a, b) in [(0, 1), (1, 0)] {
        let mut record = limited(3);
        barred(&mut record, b, 0, 27);
        barred(&mut record, a, 1, 27);
        for cycled in [false, true] {
            if cycled {
                assert_eq!(record.power().answer, 0);
                barred(&mut record, b, 0, 27);
            }
            assert_eq!(marks_of(&record, b), [(0, 3, false, true)]);
            assert_eq!(out(&mut record, 4, 0).answer, 0);
            assert_eq!(start(&mut record, b as u8, AWAY), 8);
        }
    }
}

/// Forbidden alone on the other access: no N1 mark there, so a start by hand passes, and any start
/// once T3247 has lifted the ban.
#[test]
fn a_protected_27_marks_the_receiving_access_alone() {
    for (a, b) in [(0, 1), (1, 0)] {
        let mut record = limited(3);
        barred(&mut record, b, 0, 11);
        barred(&mut record, a, 1, 27);
        assert_eq!(marks_of(&record, a), [(0, 3, false, true)]);
        assert_eq!(marks_of(&record, b), [(1, 3, true, false)]);
        let mut later = record;
        assert_eq!(out(&mut later, 4, 0).answer, 0);
        for (record, manual) in [(&mut record, 1), (&mut later, 0)] {
            assert_eq!(record.start(a as u8, manual, area(AWAY)).answer, 8);
            assert_eq!(record.start(b as u8, manual, area(AWAY)).answer, 0);
        }
    }
}

// Request R-2: choosing among the cells heard.

/// Networks of `choosing`: forbidden, N1 not allowed, both, an entry without marks.
const BANNED: u32 = 0x123456;
const NO_N1: u32 = 0x123457;
const BOTH: u32 = 0x123458;
const CLEAN: u32 = 0x123459;

/// The entries of access `a`; the other one has none.
fn choosing(a: usize) -> Record {
    let mut record = limited(3);
    for (third, forbidden, n1_barred) in
        [(0x56, true, false), (0x57, false, true), (0x58, true, true), (0x59, false, false)]
    {
        let network = [0x12, 0x34, third];
        let entry = Entry { network: network.into(), ban: 1, n1: 1, forbidden, n1_barred };
        hold(&mut record.access[a], entry);
    }
    record
}

/// The permitted networks or the refusal, with a list of this length; what lies behind them stays.
fn chosen(record: &Record, access: u8, heard: &[u32], length: usize) -> Result<Vec<u32>, u8> {
    // No two alike, so that none moves unseen.
    let before: Vec<u32> = (0..length as u32).map(|place| 0xA5A5_0000 + place).collect();
    let mut list = before.clone();
    let count = cells::permitted(record, access, heard, &mut list);
    let written = count.unwrap_or(0);
    assert_eq!(list[written..], before[written..]);
    list.truncate(written);
    count.map(|_| list)
}

/// Either mark, on the access that is asked for.
#[test]
fn a_mark_leaves_a_network_out() {
    for a in 0..2 {
        let record = choosing(a);
        for (network, out) in [
            (BANNED, true),
            (NO_N1, true),
            (BOTH, true),
            (CLEAN, false),
            // No entry: another network, the octets in another order, one octet or bit unlike.
            (0x00F110, false),
            (0x563412, false),
            (0x345612, false),
            (0x003456, false),
            (0x120056, false),
            (0x123400, false),
            (0x923456, false),
            (0x000000, false),
        ] {
            let heard = [network];
            let left = if out { &[][..] } else { &heard };
            assert_eq!(chosen(&record, a as u8, &heard, 1), Ok(left.into()), "{network:06X}");
            assert_eq!(chosen(&record, 1 - a as u8, &heard, 1), Ok(heard.into()));
        }
    }
}

/// In the order heard and each once, whatever the entries' order, into a list that just fits and
/// into longer ones.
#[test]
fn the_order_heard_and_each_once() {
    let record = choosing(0);
    for (heard, permitted) in [
        (&[][..], &[][..]),
        (&[1], &[1]),
        (&[1, 1], &[1]),
        (&[1, 1, 1], &[1]),
        (&[2, 1, 3], &[2, 1, 3]),
        (&[1, 2, 1], &[1, 2]),
        (&[2, 1, 1, 2], &[2, 1]),
        (&[3, 2, 3, 1, 2], &[3, 2, 1]),
        (&[BANNED, BANNED], &[]),
        (&[NO_N1, BANNED, BOTH, NO_N1, BOTH], &[]),
        (&[BANNED, 1], &[1]),
        (&[1, BANNED], &[1]),
        (&[BANNED, 1, BANNED, 2, 1], &[1, 2]),
        (&[1, NO_N1, 1], &[1]),
        (&[CLEAN, BOTH, CLEAN], &[CLEAN]),
        (&[9, BOTH, CLEAN, NO_N1, 5, BANNED, 9, 7], &[9, CLEAN, 5, 7]),
    ] {
        for more in [0, 1, 10, 80] {
            let got = chosen(&record, 0, heard, heard.len() + more);
            assert_eq!(got, Ok(permitted.into()), "{heard:X?}");
        }
    }
}

/// A list shorter than the one heard, though all that is permitted would fit.
#[test]
fn a_list_too_short_for_the_cells() {
    let record = choosing(1);
    for (heard, length) in [
        (&[1][..], 0),
        (&[BANNED], 0),
        (&[1, 2], 1),
        (&[1, 1], 1),
        (&[BOTH, NO_N1, 1], 2),
        (&[1, 2, 3, 4], 0),
        (&[7; 64], 63),
    ] {
        assert_eq!(chosen(&record, 1, heard, length), Err(12), "{heard:X?} {length}");
        assert!(chosen(&record, 1, heard, heard.len()).is_ok());
    }
}

/// An access, a count or a number outside its range, with a list that fits, and before 12.
#[test]
fn ranges_of_cells() {
    let record = choosing(0);
    let many: Vec<u32> = (1..=65).collect();
    assert_eq!(chosen(&record, 0, &many[..64], 64), Ok(many[..64].into()));
    assert_eq!(chosen(&record, 0, &[5; 64], 64), Ok(vec![5]));
    for length in [0, 1, 64, 65, 80] {
        assert_eq!(chosen(&record, 0, &many, length), Err(1));
        assert_eq!(chosen(&record, 0, &[BANNED; 65], length), Err(1));
        for access in [2, 3, 128, 255] {
            assert_eq!(chosen(&record, access, &[1], length), Err(1));
            assert_eq!(chosen(&record, access, &[], length), Err(1));
        }
        for wide in [0x0100_0000, 0x0112_3456, 0x8000_0001, 0xFFFF_FFFF] {
            for heard in [&[wide][..], &[wide, 1], &[1, wide], &[BANNED, 1, 1, wide, wide, 2]] {
                assert_eq!(chosen(&record, 0, heard, length), Err(1), "{wide:X}");
            }
        }
    }
    let mut last = many[..64].to_vec();
    last[63] = 0x0100_0000;
    assert_eq!(chosen(&record, 0, &last, 64), Err(1));
}

/// Three octets that are no network code have no entry: they are passed on as any other.
#[test]
fn bad_digits_are_passed_on() {
    let heard = [0xFFFFFF, 0x00FA10, BANNED, 0xA0F110, 0x00E110, 0x00FA10, 0x0000A0];
    let permitted = vec![0xFFFFFF, 0x00FA10, 0xA0F110, 0x00E110, 0x0000A0];
    assert_eq!(chosen(&choosing(0), 0, &heard, 7), Ok(permitted));
}

/// All sixteen entries count, the last one too.
#[test]
fn a_full_table_of_marks() {
    let mut record = limited(3);
    table(&mut record.access[1], &held(&sixteen()));
    let heard: Vec<u32> =
        sixteen().iter().map(|&[first, ..]| (first as u32) << 16).chain([0x160000]).collect();
    assert_eq!(chosen(&record, 1, &heard, 17), Ok(vec![0x160000]));
    record.access[1].entries[15].forbidden = false;
    assert_eq!(chosen(&record, 1, &heard, 17), Ok(vec![0x160000]));
    record.access[1].entries[15].n1_barred = false;
    assert_eq!(chosen(&record, 1, &heard, 17), Ok(vec![0x150000, 0x160000]));
    assert_eq!(chosen(&record, 0, &heard, 17), Ok(heard));
}

/// The marks that events set and lift. An area listed, the state and the other access play no part.
#[test]
fn the_marks_of_events_choose() {
    let mut record = Record::new(Limits { card: 3, ban: 3, n1: 3 }, &[0x00], &[0xF0, 0xF0]);
    let tried = |record: &Record| [0, 1].map(|a| chosen(record, a, &[0x00F220], 1).unwrap().len());
    assert_eq!(tried(&record), [1, 1]);
    record.card(1, HOME, &SUCI);
    barred(&mut record, 0, 0, 12);
    assert_eq!((record.regional.len(), tried(&record)), (1, [1, 1]));
    assert_eq!(out(&mut record, 4, 0).answer, 0);
    barred(&mut record, 0, 0, 11);
    assert_eq!(tried(&record), [0, 1]);
    barred(&mut record, 1, 0, 72);
    assert_eq!(tried(&record), [0, 0]);
    assert_eq!(out(&mut record, 4, 0).answer, 0);
    assert_eq!(tried(&record), [1, 1]);
    // The other access counts, but has no mark.
    barred(&mut record, 0, 1, 27);
    assert_eq!(marks_of(&record, 1), [(0, 3, false, false)]);
    assert_eq!(tried(&record), [0, 1]);
    record.power();
    assert_eq!(tried(&record), [1, 1]);
    assert_eq!(start(&mut record, 0, AWAY), 0);
    assert_eq!(tried(&record), [1, 1]);
    assert_eq!(reject(&mut record, 0, 1, 11).answer, 0);
    record.power();
    assert_eq!(tried(&record), [0, 1]);
    assert_eq!(record.start(0, 1, area(AWAY)).answer, 0);
    assert_eq!(accept(&mut record, 0), 0);
    assert_eq!(tried(&record), [1, 1]);
}

/// Document 02's sentences: just those without a mark, each once, in the order first heard.
#[test]
fn cells_at_random() {
    let mut draws = Draws(2);
    for _ in 0..20_000 {
        let record = choosing(draws.below(2) as usize);
        let a = draws.below(2);
        let heard: Vec<u32> =
            (0..draws.below(65)).map(|_| 0x123450 + draws.below(80) as u32).collect();
        let got = chosen(&record, a, &heard, heard.len() + draws.below(3) as usize).unwrap();
        let places: Vec<usize> =
            got.iter().map(|one| heard.iter().position(|other| other == one).unwrap()).collect();
        assert!(places.windows(2).all(|pair| pair[0] < pair[1]), "{heard:X?} {got:X?}");
        let marked = !record.access[a as usize].entries.is_empty();
        for network in &heard {
            let out = marked && (BANNED..=BOTH).contains(network);
            assert_eq!(got.contains(network), !out, "{network:X} {heard:X?} {got:X?}");
        }
    }
}

/// The lines of `--cells`. One match ends the look: of a marked one heard again, that it was.
#[test]
fn cell_lines() {
    let heard = [0x00F110, BANNED, NO_N1, 0x00F110, BOTH, CLEAN, BANNED, 0xFFFFFF];
    let mut text = String::new();
    cells::lines(&mut text, &choosing(0).access[0], &heard);
    let lines = [
        "00F110 may be tried",
        "123456 left out: forbidden",
        "123457 left out: N1 not allowed",
        "00F110 left out: heard before",
        "123458 left out: forbidden and N1 not allowed",
        "123459 may be tried",
        "123456 left out: heard before",
        "FFFFFF may be tried",
    ];
    assert_eq!(text, lines.join("\n") + "\n");
}

/// The arguments of `--cells`.
#[test]
fn cells_asked_for() {
    let asked = |text: &str| {
        let words: Vec<String> = text.split(' ').map(String::from).collect();
        crate::asked(&words)
    };
    assert_eq!(asked("--cells 0"), Ok(crate::Asked::Cells(0, vec![])));
    let heard = vec![0x00F220, 0xFFFFFF];
    assert_eq!(asked("--cells 1 00f220 FFFFFF"), Ok(crate::Asked::Cells(1, heard)));
    assert!(asked(&format!("--cells 0{}", " 00F220".repeat(64))).is_ok());
    assert!(asked(&format!("--cells 0{}", " 00F220".repeat(65))).is_err());
    for words in ["", " 2", " 00", " +1", " 0 ", " 00F220", " 0 0F220", " 0 100F220", " 0 +0F220"] {
        assert!(asked(&format!("--cells{words}")).is_err(), "{words}");
    }
    assert!(asked("--cells 0 00F220 00G220").is_err() && asked("--cell").is_err());
}

// Request R-8: the card's own forbidden list.

const UNUSED: Network = [0xFF; 3];

fn import(record: &mut Record, networks: &[Network]) -> Reply {
    record.import(networks.as_flattened())
}

/// The entry of a network that an import named first.
fn new(network: Network) -> Entry {
    Entry { network: network.into(), forbidden: true, ..Entry::default() }
}

/// The import is taken and tells nothing: access 0 has these entries then, and all else stays.
/// Those that it names are last in the order, among themselves in entry order.
fn imports(record: &mut Record, networks: &[Network], entries: &[Entry]) {
    let mut expected = *record;
    let named = |place: &u8| networks.contains(&entries[*place as usize].network.octets());
    let before = expected.access[0].order.places().into_iter().filter(|place| !named(place));
    let order: Vec<u8> = before.chain((0..entries.len() as u8).filter(named)).collect();
    expected.access[0].entries = List::of(entries);
    expected.access[0].order = Order::of(&order);
    assert_eq!(import(record, networks), Reply::of(0), "{networks:02X?}");
    assert_eq!(text(record), text(&expected), "{networks:02X?}");
    valid(record);
}

/// The import is refused and changes nothing.
fn turns_down(record: &mut Record, file: &[u8], answer: u8) {
    let before = text(record);
    assert_eq!(record.import(file), Reply::of(answer), "{file:02X?}");
    assert_eq!(text(record), before, "{file:02X?}");
}

/// An entry for each combination of marks, counters below and at their limits.
fn known() -> Vec<Entry> {
    let combined = |case: u8| Entry {
        network: [case, 0, 0].into(),
        ban: case % 4,
        n1: (case / 4) % 4,
        forbidden: case & 4 == 4,
        n1_barred: case & 1 == 1,
    };
    (0..=9).map(combined).collect()
}

/// In the file's order and each once; an unused place is passed over wherever it stands.
#[test]
fn an_import_marks_new_networks() {
    let [a, b, c] = [AWAY, NEAR, EQUIVALENT];
    for (file, held) in [
        (&[a][..], &[a][..]),
        (&[b, a], &[b, a]),
        (&[a, a], &[a]),
        (&[a, b, a, c, b], &[a, b, c]),
        (&[UNUSED, a], &[a]),
        (&[a, UNUSED, UNUSED, b, UNUSED], &[a, b]),
        (&[UNUSED, c, UNUSED, c, b], &[c, b]),
        (&[HOME, a], &[HOME, a]),
        (&[[0x00, 0x00, 0x00], [0x99, 0x99, 0x99]], &[[0x00, 0x00, 0x00], [0x99, 0x99, 0x99]]),
        (&[ALIKE[0], a, ALIKE[1], ALIKE[2]], &[ALIKE[0], a, ALIKE[1], ALIKE[2]]),
    ] {
        let entries: Vec<Entry> = held.iter().copied().map(new).collect();
        imports(&mut limited(3), file, &entries);
    }
}

/// Whatever its entry was, the mark is set; counters, N1 mark and place stay. New ones come last.
#[test]
fn an_import_marks_networks_that_have_an_entry() {
    for entry in known() {
        let mut record = limited(3);
        table(&mut record.access[0], &known());
        let mut entries = known();
        entries[entry.network.octets()[0] as usize].forbidden = true;
        imports(&mut record, &[UNUSED, entry.network.octets(), entry.network.octets()], &entries);
        entries.push(new(AWAY));
        imports(&mut record, &[AWAY, entry.network.octets()], &entries);
    }
    let mut record = limited(3);
    table(&mut record.access[0], &known());
    let file: Vec<Network> = known().iter().rev().map(|entry| entry.network.octets()).collect();
    let all: Vec<Entry> = known().iter().map(|entry| Entry { forbidden: true, ..*entry }).collect();
    imports(&mut record, &file, &all);
}

/// An empty file, and one of unused places alone, as long as a log has them.
#[test]
fn an_import_of_no_network() {
    for length in [0, 1, 2, 16, 17, 21_844] {
        imports(&mut limited(3), &vec![UNUSED; length], &[]);
        let mut record = marked();
        let entries = record.access[0].entries.to_vec();
        imports(&mut record, &vec![UNUSED; length], &entries);
    }
    imports(&mut limited(3), &[AWAY; 21_844], &[new(AWAY)]);
}

#[test]
fn lengths_of_a_file() {
    let whole = [AWAY, UNUSED, NEAR, HOME].concat();
    for length in (0..whole.len()).filter(|length| length % 3 != 0) {
        turns_down(&mut limited(3), &whole[..length], 1);
        turns_down(&mut limited(3), &vec![0xFF; length], 1);
    }
}

/// A digit above 9 but for F as the third of the MNC, in any place of the file.
#[test]
fn codes_of_a_file() {
    let mut bad =
        vec![[0xFF, 0xFF, 0x0F], [0xFF, 0xF0, 0xFF], [0x0F, 0xFF, 0xFF], [0x00, 0xFF, 0xFF]];
    for (place, half) in (0..3).flat_map(|place| [(place, 0), (place, 4)]) {
        for digit in (10..=15).filter(|&digit| (place, half, digit) != (1, 4, 15)) {
            let mut code = [0x12, 0x34, 0x56];
            code[place] = code[place] & (0xF0 >> half) | digit << half;
            bad.push(code);
        }
    }
    for code in bad {
        for file in [&[code][..], &[code, AWAY], &[AWAY, code], &[NEAR, UNUSED, code, HOME]] {
            turns_down(&mut limited(3), file.as_flattened(), 1);
        }
        let mut record = limited(3);
        hold(&mut record.access[0], Entry { network: AWAY.into(), ..Entry::default() });
        turns_down(&mut record, [AWAY, code].as_flattened(), 1);
    }
    imports(&mut limited(3), &[[0x12, 0xF4, 0x56]], &[new([0x12, 0xF4, 0x56])]);
}

/// With any number of entries held, as many new networks as are free fit, with doubles and with all
/// that have an entry beside them. One more is 4, and then none of the file is marked.
#[test]
fn a_file_that_fills_the_table() {
    let fresh: [Network; 17] =
        std::array::from_fn(|index| [index as u8 % 10, 0xF0, index as u8 / 10]);
    for count in 0..=16 {
        let mut record = limited(3);
        let entries: Vec<Entry> = sixteen()[..count]
            .iter()
            .map(|&network| Entry { network: network.into(), ban: 2, n1: 3, ..Entry::default() })
            .collect();
        table(&mut record.access[0], &entries);
        let mut all: Vec<Entry> =
            entries.iter().map(|entry| Entry { forbidden: true, ..*entry }).collect();
        all.extend(fresh[..16 - count].iter().copied().map(new));
        let free = &fresh[..16 - count];
        let more = &fresh[..17 - count];
        let with = |news: &[Network]| [&sixteen()[..count], news, &[UNUSED], news].concat();
        turns_down(&mut record, more.as_flattened(), 4);
        turns_down(&mut record, with(more).as_flattened(), 4);
        let mut bad = with(more);
        bad.push([0xA0, 0xF1, 0x10]);
        turns_down(&mut record, bad.as_flattened(), 1);
        turns_down(&mut record, &[more.as_flattened(), &[0xFF]].concat(), 1);
        imports(&mut record, &with(free), &all);
        turns_down(&mut record, fresh[16..].as_flattened(), 4);
        imports(&mut record, &with(free), &all);
    }
}

/// In each state of either access, with all that an event could change, and without a card.
#[test]
fn an_import_in_each_state() {
    for (a, _, record) in pendings() {
        for state in 0..=6 {
            let mut record = laden(record);
            (record.access[a].state, record.access[a].t3510) = (state, state == 4);
            record.access[a].t3346 = true;
            let held = record.access[0].entries[0];
            imports(&mut record, &[HOME, AWAY], &[held, new(HOME)]);
        }
    }
    let mut bare = Record::new(Limits { card: 1, ban: 1, n1: 1 }, &[0x00], &[0xF0, 0xF0]);
    imports(&mut bare, &[AWAY, HOME], &[new(AWAY), new(HOME)]);
    assert_eq!(bare.power(), Reply::of(0));
    assert_eq!(marks_of(&bare, 0), [(0, 0, true, false); 2]);
    assert_eq!(bare.card(1, HOME, &SUCI).answer, 0);
    assert!(bare.access[0].entries.is_empty());
}

/// Counter 0: neither T3247 nor a power cycle lifts the mark. Above 0 and below the limit both do,
/// whoever set it last; at the limit neither does.
#[test]
fn what_lifts_an_imported_mark() {
    for (counter, lifted) in [(0, false), (1, true), (2, true), (3, false)] {
        let mut record = limited(3);
        record.t3247 = true;
        let entry = Entry { network: AWAY.into(), ban: counter, ..Entry::default() };
        hold(&mut record.access[0], entry);
        assert_eq!(import(&mut record, &[NEAR, AWAY]).answer, 0);
        let mut cycled = record;
        assert_eq!(cycled.power().answer, 0);
        assert_eq!(out(&mut record, 4, 0).answer, 0);
        for mut record in [record, cycled] {
            assert_eq!(ban(&record), (counter, !lifted));
            assert_eq!(marks_of(&record, 0)[1], (0, 0, true, false));
            assert_eq!(start(&mut record, 0, NEAR), 8);
            assert_eq!(start(&mut record, 0, AWAY), if lifted { 0 } else { 8 });
        }
    }
}

/// A start is 8 and by hand it passes; an accept lifts the mark, and that of no other network.
#[test]
fn an_accept_lifts_an_imported_mark() {
    for network in [AWAY, HOME] {
        let mut record = limited(3);
        imports(&mut record, &[NEAR, network], &[new(NEAR), new(network)]);
        assert_eq!(record.start(0, 0, area(network)), Reply::of(8));
        assert_eq!(record.start(0, 1, area(network)).answer, 0);
        assert_eq!(accept(&mut record, 0), 0);
        assert_eq!(marks_of(&record, 0), [(0, 0, true, false), (0, 0, false, false)]);
        assert_eq!(record.power().answer, 0);
        assert_eq!(start(&mut record, 0, network), 0);
        // While the answer is waited for the file is read once more: the accept still lifts.
        assert_eq!(import(&mut record, &[network]).answer, 0);
        assert_eq!(accept(&mut record, 0), 0);
        assert_eq!(marks_of(&record, 0), [(0, 0, true, false), (0, 0, false, false)]);
        assert_eq!(import(&mut record, &[network]).answer, 0);
        assert_eq!(update(&mut record, 0, 2, network), 8);
    }
}

/// An unprotected no counts from 1, and T3247 then lifts the card's ban with it, until the file is
/// read again; at the limit, by a third or a protected one, it stays.
#[test]
fn rejects_of_an_imported_network() {
    let mut record = limited(3);
    assert_eq!(import(&mut record, &[AWAY]).answer, 0);
    for count in 1..=3 {
        assert_eq!(record.start(0, 1, area(AWAY)).answer, 0);
        assert_eq!(reject(&mut record, 0, 0, 11), reply(0, true, None));
        assert_eq!(ban(&record), (count, true));
        assert_eq!(out(&mut record, 4, 0).answer, 0);
        assert_eq!(ban(&record), (count, count == 3));
        assert_eq!(import(&mut record, &[AWAY]).answer, 0);
        assert_eq!(ban(&record), (count, true));
    }
    let mut record = limited(3);
    assert_eq!(import(&mut record, &[AWAY]).answer, 0);
    assert_eq!(record.start(0, 1, area(AWAY)).answer, 0);
    assert_eq!(reject(&mut record, 0, 1, 73), reply(0, false, None));
    barred_elsewhere(&mut record);
    assert_eq!(out(&mut record, 4, 0).answer, 0);
    assert_eq!(ban(&record), (3, true));
    assert_eq!(record.power().answer, 0);
    assert_eq!(ban(&record), (3, true));
}

/// An unprotected no of another network, which starts T3247.
fn barred_elsewhere(record: &mut Record) {
    assert_eq!(start(record, 0, NEAR), 0);
    assert_eq!(reject(record, 0, 0, 11).answer, 0);
}

/// An N1 mark below the limit goes with T3247, and the card's ban stays.
#[test]
fn an_imported_network_that_bars_n1() {
    let mut record = limited(3);
    assert_eq!(import(&mut record, &[AWAY]).answer, 0);
    assert_eq!(record.start(0, 1, area(AWAY)).answer, 0);
    assert_eq!(reject(&mut record, 0, 0, 27), reply(0, true, None));
    assert_eq!(marks_of(&record, 0), [(0, 1, true, true)]);
    assert_eq!(record.start(0, 1, area(AWAY)), Reply::of(8));
    assert_eq!(out(&mut record, 4, 0).answer, 0);
    assert_eq!(marks_of(&record, 0), [(0, 1, true, false)]);
    assert_eq!(start(&mut record, 0, AWAY), 8);
}

/// Access 1 gets no entry and no mark, and its own are no entries of access 0; but an imported
/// network has one there, which a protected 27 over access 1 counts to the limit (R-14).
#[test]
fn an_import_is_for_access_0() {
    let mut record = limited(3);
    assert_eq!(import(&mut record, &[AWAY]).answer, 0);
    assert!(record.access[1].entries.is_empty());
    assert_eq!(start(&mut record, 1, AWAY), 0);
    assert_eq!(reject(&mut record, 1, 1, 27).answer, 0);
    assert_eq!(marks_of(&record, 0), [(0, 3, true, false)]);
    assert_eq!(marks_of(&record, 1), [(0, 3, false, true)]);
    let mut record = limited(3);
    table(&mut record.access[1], &held(&sixteen()));
    let entries = sixteen().map(new);
    imports(&mut record, &sixteen(), &entries);
}

/// A network that a later file leaves out keeps its mark, and an event's entry stays too.
#[test]
fn an_import_only_adds() {
    let mut record = banned(3, 1, 0);
    imports(&mut record, &[NEAR], &[Entry { ban: 1, ..new(AWAY) }, new(NEAR)]);
    for file in [&[][..], &[UNUSED, NEAR], &[UNUSED; 5]] {
        imports(&mut record, file, &[Entry { ban: 1, ..new(AWAY) }, new(NEAR)]);
    }
}

/// Log kind 10: the whole body is the file.
#[test]
fn imports_in_logs() {
    for (text_of, answer, count) in [
        ("0A 00", 0, 0),
        ("0A 00 FF FF FF", 0, 0),
        ("0A 00 00 F2 20", 0, 1),
        ("0A 00 00 F2 20 FF FF FF 62 F2 20 00 F2 20", 0, 2),
        ("0A 00 00", 1, 0),
        ("0A 00 00 F2", 1, 0),
        ("0A 00 00 F2 20 FF", 1, 0),
        ("0A 00 00 F2 20 00 FA 10", 1, 0),
        ("0A 01 00 F2 20", 1, 0),
        ("00 0A 00 F2 20", 1, 0),
        ("09 00 00 F2 20", 1, 0),
        ("0B 00 00 F2 20", 1, 0),
    ] {
        let mut record = limited(3);
        assert_eq!(apply(&mut record, &octets(text_of)), Reply::of(answer), "{text_of}");
        assert_eq!(record.access[0].entries.len(), count, "{text_of}");
    }
    let mut record = limited(3);
    let most = [&[10, 0], sixteen().as_flattened()].concat();
    assert_eq!(apply(&mut record, &most).answer, 0);
    assert_eq!(apply(&mut record, &octets("0A 00 00 F2 20")).answer, 4);
    assert_eq!(apply(&mut record, &most).answer, 0);
}

/// A file of this length, written over octets that show what is left: what it holds and the count.
fn filed(record: &Record, length: usize) -> Result<(Vec<u8>, usize), u8> {
    let before: Vec<u8> = (0..length).map(|place| 0x40 + place as u8 % 64).collect();
    let mut file = before.clone();
    let count = card::write(record, &mut file);
    assert!(count.is_ok() || file == before);
    count.map(|count| (file, count))
}

/// The networks that are forbidden on access 0, in entry order, then FF; with whatever counters.
#[test]
fn a_file_written() {
    let mut record = limited(3);
    table(&mut record.access[0], &known());
    table(&mut record.access[1], &held(&sixteen()));
    let list: Vec<Network> = (4..=7).map(|first| [first, 0, 0]).collect();
    for places in 4..=20 {
        let unused = vec![UNUSED; places - 4];
        let whole = [list.as_flattened(), unused.as_flattened()].concat();
        assert_eq!(filed(&record, 3 * places), Ok((whole, 4)));
    }
    for places in [0, 1, 16, 21_845] {
        let unused = vec![0xFF; 3 * places];
        assert_eq!(filed(&limited(3), 3 * places), Ok((unused, 0)));
    }
    table(&mut record.access[0], &held(&sixteen()));
    assert_eq!(filed(&record, 48), Ok((sixteen().concat(), 16)));
}

/// 1 for a length that is no multiple of three, whether the list would fit or not; then 12.
#[test]
fn refusals_of_a_file() {
    for count in 0..=16 {
        let mut record = limited(3);
        table(&mut record.access[0], &held(&sixteen()[..count]));
        for length in 0..60 {
            let refused = match length {
                _ if length % 3 != 0 => Some(1),
                _ if length < 3 * count => Some(12),
                _ => None,
            };
            assert_eq!(filed(&record, length).err(), refused, "{count} {length}");
        }
    }
}

/// What was written, read into a record just given that card, gives the same forbidden marks: in
/// the same order, and with counter 0.
#[test]
fn a_file_reads_back() {
    let mut draws = Draws(3);
    let mut record = limited(2);
    let mut counts = [0; 17];
    for _ in 0..50_000 {
        draws.event(&mut record);
        let marked: Vec<Network> = record.access[0]
            .entries
            .iter()
            .filter(|e| e.forbidden)
            .map(|e| e.network.octets())
            .collect();
        let spare = draws.below(4) as usize;
        let (file, count) = filed(&record, 3 * (marked.len() + spare)).unwrap();
        let mut later = Record::new(record.limits, &record.capability, &record.security);
        assert_eq!(later.card(1, record.home, &SUCI).answer, 0);
        let entries: Vec<Entry> = marked.iter().copied().map(new).collect();
        imports(&mut later, file.as_chunks().0, &entries);
        assert_eq!(count, marked.len());
        counts[count] += 1;
    }
    assert!(counts.iter().all(|&times| times > 100), "{counts:?}");
}

// Request R-9: the seventeenth network.

/// A network for each number below 100; none is home.
fn nth(index: usize) -> Network {
    [(index % 10) as u8, 0xF5, (index / 10) as u8]
}

/// A start by hand, which passes a forbidden mark, and a reject of it: the answer to that.
fn turned_away(record: &mut Record, a: usize, network: Network, protected: u8, cause: u8) -> u8 {
    assert_eq!(record.start(a as u8, 1, area(network)).answer, 0);
    reject(record, a as u8, protected, cause).answer
}

/// Access `a` with the first sixteen networks, marked in that order by rejects of this cause.
fn sixteen_turned_away(a: usize, cause: u8) -> Record {
    let mut record = limited(3);
    for index in 0..16 {
        assert_eq!(turned_away(&mut record, a, nth(index), 0, cause), 0);
    }
    record
}

/// T3247 out, which lifts every mark that stands below its limit.
fn lifted(mut record: Record) -> Record {
    assert_eq!(out(&mut record, 4, 0).answer, 0);
    record
}

/// The networks of an access's entries in their order of last marking.
fn aged(record: &Record, a: usize) -> Vec<Network> {
    let access = &record.access[a];
    access
        .order
        .places()
        .iter()
        .map(|place| access.entries[*place as usize].network.octets())
        .collect()
}

/// The networks of an access's entries by their places.
fn seated(record: &Record, a: usize) -> Vec<Network> {
    record.access[a].entries.iter().map(|entry| entry.network.octets()).collect()
}

/// Those of these numbers.
fn networks(indices: impl IntoIterator<Item = usize>) -> Vec<Network> {
    indices.into_iter().map(nth).collect()
}

/// Each cause that marks, over each access on which it does.
const MARKING: [(usize, u8); 7] = [(0, 11), (0, 73), (0, 27), (1, 11), (1, 73), (1, 27), (1, 72)];

/// A truck through forty networks: each takes the place of the one marked longest ago, counts from
/// 1 and has its own mark alone. Those behind a place given up stay where they are.
#[test]
fn the_oldest_gives_up_its_place() {
    for (a, cause) in MARKING {
        let bans = matches!(cause, 11 | 73);
        let counted = |network| match bans {
            true => Entry { ban: 1, ..new(network) },
            false => Entry { network: network.into(), n1: 1, n1_barred: true, ..Entry::default() },
        };
        let mut record = lifted(sixteen_turned_away(a, cause));
        for index in 16..40 {
            let mut expected = record.access[a].entries;
            expected[index % 16] = counted(nth(index));
            let other = record.access[1 - a];
            assert_eq!(turned_away(&mut record, a, nth(index), 0, cause), 0);
            let mut same = record;
            same.access[a].entries = expected;
            same.access[1 - a] = other;
            assert_eq!(text(&record), text(&same), "access {a} cause {cause}");
            assert_eq!(aged(&record, a), networks(index - 15..=index));
            valid(&record);
            if index == 31 {
                // All sixteen have a mark, until T3247 is out.
                assert_eq!(turned_away(&mut record, a, nth(50), 0, cause), 4);
                assert_eq!(reject(&mut record, a as u8, 0, 22).answer, 0);
                record = lifted(record);
            }
        }
    }
}

/// The newcomer has nothing of what was at its place: not the counters, though they be at their
/// limits, and not the other mark's past. What left begins anew as well.
#[test]
fn a_place_given_up_is_forgotten() {
    for (a, cause) in MARKING {
        for protected in [0, 1] {
            let mut record = limited(3);
            table(&mut record.access[a], &held(&networks(0..16)));
            let entry = &mut record.access[a].entries[7];
            *entry = Entry { network: nth(7).into(), ban: 3, n1: 3, ..Entry::default() };
            let mut back = record;
            assert_eq!(turned_away(&mut record, a, nth(16), protected, cause), 0);
            let counter = if protected == 1 { 3 } else { 1 };
            let fresh = match cause {
                11 | 73 => (counter, 0, true, false),
                _ => (0, counter, false, true),
            };
            assert_eq!(marks_of(&record, a)[7], fresh);
            assert_eq!(seated(&record, a)[7], nth(16));
            assert_eq!(record.access[a].entry(&nth(7)).map(|entry| entry.ban), None);
            // Back where it was, it counts from 1; had it not left, it would be at its limit.
            record.access[a].entries[7] = Entry { network: nth(16).into(), ..Entry::default() };
            assert_eq!(turned_away(&mut record, a, nth(7), 0, 11), 0);
            assert_eq!(marks_of(&record, a)[7], (1, 0, true, false));
            assert_eq!(turned_away(&mut back, a, nth(7), 0, 11), 0);
            assert_eq!(marks_of(&back, a)[7], (3, 3, true, false));
        }
    }
}

/// A network at its limit that an accept took off the list is given up like any other, and its
/// counter with it: three rejects more are counted before T3247 leaves it.
#[test]
fn a_counter_at_its_limit_is_lost() {
    let mut record = limited(3);
    for index in 0..16 {
        assert_eq!(turned_away(&mut record, 0, nth(index), 1, 11), 0);
    }
    assert_eq!(record.start(0, 1, area(nth(4))).answer, 0);
    assert_eq!(accept(&mut record, 0), 0);
    assert_eq!(marks_of(&record, 0)[4], (3, 0, false, false));
    assert_eq!(record.power().answer, 0);
    assert_eq!(turned_away(&mut record, 0, nth(16), 0, 11), 0);
    assert_eq!(seated(&record, 0)[4], nth(16));
    record = lifted(record);
    assert_eq!(turned_away(&mut record, 0, nth(4), 0, 11), 0);
    assert_eq!(seated(&record, 0)[4], nth(4));
    assert_eq!(marks_of(&record, 0)[4], (1, 0, true, false));
    record = lifted(record);
    assert_eq!(start(&mut record, 0, nth(4)), 0);
}

/// Marked again, by either cause, with the mark standing or lifted: last in the order.
#[test]
fn marking_again_makes_it_the_last() {
    for (a, cause) in MARKING {
        for again in [11, 27] {
            for standing in [true, false] {
                let mut record = sixteen_turned_away(a, cause);
                if !standing {
                    record = lifted(record);
                }
                for place in [3, 0, 3, 15, 5] {
                    // An N1 mark keeps a start away, so the one that is asked has been asked before.
                    let barred = record.access[a].entries[place].n1_barred;
                    record.access[a].entries[place].n1_barred = false;
                    assert_eq!(record.start(a as u8, 1, area(nth(place))).answer, 0);
                    record.access[a].entries[place].n1_barred = barred;
                    assert_eq!(reject(&mut record, a as u8, 0, again).answer, 0);
                }
                let rest = (0..16).filter(|index| ![0, 3, 5, 15].contains(index));
                assert_eq!(aged(&record, a), networks(rest.chain([0, 3, 15, 5])));
                assert_eq!(seated(&record, a), networks(0..16));
                assert_eq!(record.power().answer, 0);
                for (index, place) in [1, 2, 4, 6, 7].into_iter().enumerate() {
                    assert_eq!(turned_away(&mut record, a, nth(20 + index), 0, cause), 0);
                    assert_eq!(seated(&record, a)[place], nth(20 + index));
                }
            }
        }
    }
}

/// An accept, T3247, a power cycle, rejects that mark nothing and refusals leave the order.
#[test]
fn only_marking_moves_a_network() {
    for (a, cause) in [(0, 11), (1, 11), (1, 72)] {
        let mut record = sixteen_turned_away(a, cause);
        let access = a as u8;
        assert_eq!(turned_away(&mut record, a, nth(16), 1, 27), 4);
        assert_eq!(reject(&mut record, access, 1, 22).answer, 0);
        record = lifted(record);
        for index in [9, 2] {
            assert_eq!(start(&mut record, access, nth(index)), 0);
            assert_eq!(accept(&mut record, access), 0);
            assert_eq!(update(&mut record, access, 2, nth(index)), 0);
            assert_eq!(reject(&mut record, access, 0, 95).answer, 0);
            assert_eq!(record.power().answer, 0);
            for cause in [3, 15, 22, 111] {
                assert_eq!(turned_away(&mut record, a, nth(index), 0, cause), 0);
                record = Record { roaming: List::new(), ..record };
            }
        }
        assert_eq!(turned_away(&mut record, a, HOME, 0, 11), 0);
        assert_eq!(aged(&record, a), networks(0..16));
        record.access[1 - a].state = 5;
        assert_eq!(start(&mut record, access, nth(0)), 0);
        assert_eq!(reject(&mut record, access, 0, 3).answer, 2);
        assert_eq!(aged(&record, a), networks(0..16));
    }
}

/// A protected 27 counts on the other access without marking there: nobody moves. What gives up
/// its place gives it up on the receiving access alone.
#[test]
fn counting_on_the_other_access_is_no_marking() {
    for (a, b) in [(0, 1), (1, 0)] {
        let mut record = limited(3);
        for access in &mut record.access {
            let entry = |network: Network| Entry {
                network: network.into(),
                ban: 1,
                n1: 1,
                ..Entry::default()
            };
            table(access, &networks(0..16).into_iter().map(entry).collect::<Vec<_>>());
        }
        record.access[b].entries[5].network = nth(16).into();
        let other = record.access[b];
        assert_eq!(turned_away(&mut record, a, nth(16), 1, 27), 0);
        assert_eq!(aged(&record, a), networks(1..=16));
        assert_eq!(marks_of(&record, a)[0], (0, 3, false, true));
        let mut expected = record;
        expected.access[b] = other;
        expected.access[b].entries[5].n1 = 3;
        assert_eq!(text(&record), text(&expected));
        // Answer 4 raises nothing there.
        record.access[a].entries.iter_mut().for_each(|entry| entry.forbidden = true);
        record.access[b].entries[6].network = nth(17).into();
        assert_eq!(record.start(a as u8, 1, area(nth(17))).answer, 0);
        let before = text(&record);
        assert_eq!(reject(&mut record, a as u8, 1, 27), Reply::of(4));
        assert_eq!(text(&record), before);
    }
}

/// What one import marked goes last, among itself in entry order, whatever the file's order was;
/// so the first in entry order gives up its place first.
#[test]
fn of_one_import_the_first_in_entry_order() {
    let mut record = limited(3);
    for index in 0..12 {
        assert_eq!(turned_away(&mut record, 0, nth(index), 0, 11), 0);
    }
    let file = networks([13, 7, 30, 12, 2, 13, 0, 31]);
    assert_eq!(import(&mut record, &file).answer, 0);
    let places = [0, 1, 2, 3, 4, 5, 6, 7, 8, 9, 10, 11, 13, 30, 12, 31];
    assert_eq!(seated(&record, 0), networks(places));
    let order = [1, 3, 4, 5, 6, 8, 9, 10, 11, 0, 2, 7, 13, 30, 12, 31];
    assert_eq!(aged(&record, 0), networks(order));
    assert_eq!(record.access[0].ranks(), [9, 0, 10, 1, 2, 3, 4, 11, 5, 6, 7, 8, 12, 13, 14, 15]);
    // A later one of two networks, and then rejects that need a place.
    assert_eq!(import(&mut record, &networks([4, 3])).answer, 0);
    for entry in record.access[0].entries.iter_mut() {
        (entry.forbidden, entry.n1_barred) = (false, false);
    }
    let left = [1, 5, 6, 8, 9, 10, 11, 0, 2, 7, 13, 30, 12, 31, 3, 4];
    for (index, old) in left.into_iter().enumerate() {
        let place = seated(&record, 0).iter().position(|network| *network == nth(old)).unwrap();
        assert_eq!(turned_away(&mut record, 0, nth(40 + index), 0, 11), 0);
        assert_eq!(seated(&record, 0)[place], nth(40 + index));
    }
}

/// An import marks again what stood marked; an empty one marks nothing.
#[test]
fn an_import_moves_what_it_names() {
    let mut record = sixteen_turned_away(0, 11);
    assert_eq!(import(&mut record, &[UNUSED, UNUSED]).answer, 0);
    assert_eq!(aged(&record, 0), networks(0..16));
    assert_eq!(import(&mut record, &networks([0])).answer, 0);
    assert_eq!(aged(&record, 0), networks((1..16).chain([0])));
    record = lifted(record);
    assert_eq!(turned_away(&mut record, 0, nth(16), 0, 11), 0);
    assert_eq!(seated(&record, 0)[1], nth(16));
}

/// For an import an entry without a mark is held: 4, and nobody leaves.
#[test]
fn an_import_gives_none_up() {
    let mut record = lifted(sixteen_turned_away(0, 11));
    for file in [&[nth(16)][..], &[nth(0), nth(16)], &[nth(16), UNUSED, nth(0), nth(16)]] {
        turns_down(&mut record, file.as_flattened(), 4);
    }
    assert_eq!(turned_away(&mut record, 0, nth(16), 0, 11), 0);
    turns_down(&mut record, &nth(0), 4);
    let mut entries = record.access[0].entries.to_vec();
    for place in [0, 3] {
        entries[place].forbidden = true;
    }
    imports(&mut record, &[nth(3), nth(16)], &entries);
}

/// Answer 4 for a reject: all sixteen have a mark, one or both, whatever their counters. With one
/// mark lifted that place is given up, though it be the youngest.
#[test]
fn all_sixteen_marked() {
    for (a, cause) in MARKING {
        for place in 0..16 {
            let mut record = limited(3);
            table(&mut record.access[a], &held(&networks(0..16)));
            for (index, entry) in record.access[a].entries.iter_mut().enumerate() {
                (entry.forbidden, entry.n1_barred) = (index % 3 != 0, index % 3 != 1);
            }
            assert_eq!(record.start(a as u8, 0, area(nth(16))).answer, 0);
            let before = text(&record);
            for protected in [0, 1] {
                assert_eq!(reject(&mut record, a as u8, protected, cause), Reply::of(4));
            }
            assert_eq!(text(&record), before);
            let entry = &mut record.access[a].entries[place];
            (entry.forbidden, entry.n1_barred) = (false, false);
            assert_eq!(reject(&mut record, a as u8, 0, cause).answer, 0);
            assert_eq!(seated(&record, a)[place], nth(16));
            assert_eq!(aged(&record, a)[15], nth(16));
        }
    }
}

/// A free entry is taken before a place is given up, and the own one before either.
#[test]
fn a_free_entry_comes_first() {
    for (a, cause) in MARKING {
        let mut record = limited(3);
        for index in 0..15 {
            assert_eq!(turned_away(&mut record, a, nth(index), 0, cause), 0);
        }
        record = lifted(record);
        assert_eq!(turned_away(&mut record, a, nth(20), 0, cause), 0);
        assert_eq!(seated(&record, a), networks((0..15).chain([20])));
        assert_eq!(turned_away(&mut record, a, nth(0), 0, cause), 0);
        assert_eq!(seated(&record, a), networks((0..15).chain([20])));
        assert_eq!(aged(&record, a), networks((1..15).chain([20, 0])));
    }
}

/// The reject of an update needs an entry as well.
#[test]
fn a_place_given_up_in_an_update() {
    for (a, cause) in MARKING {
        let mut record = lifted(sixteen_turned_away(a, cause));
        register(&mut record, a as u8, nth(0));
        assert_eq!(update(&mut record, a as u8, 2, nth(16)), 0);
        assert_eq!(reject(&mut record, a as u8, 1, cause).answer, 0);
        assert_eq!(seated(&record, a), networks([16].into_iter().chain(1..16)));
    }
}

/// Fact 8 and R-9's own words: 4 while all have a mark; taken once T3247 is out, and after a card
/// change, with which the order goes too.
#[test]
fn a_card_change_clears_the_order() {
    for (a, cause) in MARKING {
        let mut record = sixteen_turned_away(a, cause);
        assert_eq!(turned_away(&mut record, a, nth(16), 0, cause), 4);
        let mut later = record;
        assert_eq!(out(&mut later, 4, 0).answer, 0);
        assert_eq!(reject(&mut later, a as u8, 0, cause).answer, 0);
        assert_eq!(seated(&later, a)[0], nth(16));
        assert_eq!(record.card(1, HOME, &SUCI).answer, 0);
        assert!(record.access.iter().all(|access| access.order.places().is_empty()));
        for index in [16, 3, 8] {
            assert_eq!(turned_away(&mut record, a, nth(index), 0, cause), 0);
        }
        assert_eq!(aged(&record, a), networks([16, 3, 8]));
        assert_eq!(record.access[a].ranks(), [0, 1, 2, 0, 0, 0, 0, 0, 0, 0, 0, 0, 0, 0, 0, 0]);
    }
}

/// Each network's stamp is the number of the event that marked it last; the order is by stamps, and
/// by places where one import gave them. Whoever needs a place gets the one with the least stamp.
#[test]
fn places_given_up_at_random() {
    let mut draws = Draws(9);
    let mut record = limited(2);
    let mut stamps: [BTreeMap<Network, usize>; 2] = [BTreeMap::new(), BTreeMap::new()];
    let mut seen = [0; 4];
    for number in 0..60_000 {
        let a = draws.below(2) as usize;
        let network = nth(draws.below(24) as usize);
        let before = record.access;
        match draws.below(40) {
            0..=29 => {
                let cause = [11, 73, 27, 72][draws.below(4) as usize];
                let protected = (draws.below(10) == 0) as u8;
                if record.start(a as u8, 1, area(network)).answer == 0 {
                    let answer = reject(&mut record, a as u8, protected, cause).answer;
                    let marks = cause != 72 || a == 1;
                    let old = needed(&before[a], &stamps[a], network).filter(|_| marks);
                    let full = marks && old.is_none();
                    assert_eq!(answer, if full { 4 } else { 0 });
                    if let Some(place) = old {
                        let gone =
                            before[a].entries.get(place).filter(|e| e.network.octets() != network);
                        seen[a] += gone.is_some() as usize;
                        assert_eq!(record.access[a].entries[place].network.octets(), network);
                        stamps[a].insert(network, number);
                    }
                    if full {
                        seen[2] += 1;
                        record.access[a].state = 1;
                        record.access[a].t3510 = false;
                    }
                }
            }
            30..=32 => {
                let known = before[a].entry(&network).is_some();
                if known && record.start(a as u8, 1, area(network)).answer == 0 {
                    assert_eq!(accept(&mut record, a as u8), 0);
                    record.access[a].state = 1;
                }
            }
            33..=35 => {
                let file = networks((0..draws.below(4)).map(|_| draws.below(24) as usize));
                if import(&mut record, &file).answer == 0 {
                    seen[3] += 1;
                    stamps[0].extend(file.into_iter().map(|network| (network, number)));
                }
            }
            36 if draws.below(20) == 0 => {
                assert_eq!(record.card(1, HOME, &SUCI).answer, 0);
                stamps = [BTreeMap::new(), BTreeMap::new()];
            }
            37 => assert_eq!(record.power().answer, 0),
            _ => drop(out(&mut record, 4, 0)),
        }
        valid(&record);
        for (access, stamps) in record.access.iter().zip(&stamps) {
            let key =
                |place: &u8| (stamps[&access.entries[*place as usize].network.octets()], *place);
            assert!(access.order.places().is_sorted_by_key(key));
        }
    }
    assert!(seen.iter().all(|&times| times > 1000), "{seen:?}");
}

/// The place that a network gets: its own, the first free one, or that of the least stamp.
fn needed(access: &Access, stamps: &BTreeMap<Network, usize>, network: Network) -> Option<usize> {
    let own = access.entries.iter().position(|entry| entry.network.octets() == network);
    let free = (access.entries.len() < 16).then_some(access.entries.len());
    let clean = access.entries.iter().enumerate().filter(|(_, e)| !e.forbidden && !e.n1_barred);
    let old = clean.min_by_key(|(place, entry)| (stamps[&entry.network.octets()], *place));
    own.or(free).or(old.map(|(place, _)| place))
}

// Request R-12: an access's entries follow from its own events.

type Events = Vec<Vec<u8>>;
/// One of R-12's events for an access, and the access after it.
type Own = (Vec<u8>, Access);

impl Draws {
    /// An event of access `a` or, seldom, of both, as a log has it; most are starts and rejects.
    fn logged(&mut self, a: u8) -> Vec<u8> {
        let place = area(nth(self.below(24) as usize));
        let marks = [11, 73, 27, 72][self.below(4) as usize];
        let other = [3, 6, 7, 15, 22, 95][self.below(6) as usize];
        let protected = (self.below(6) == 0) as u8;
        match self.below(250) {
            0..=89 => [&[2, 0, a, self.below(2)], &place[..]].concat(),
            90..=159 => vec![3, 0, a, protected, 8, 7, 0x7E, 0, 0x44, marks],
            160..=174 => vec![8, 0, a, protected, 8, 7, 132, 3, 0x7E, 0, 0x44, marks],
            175..=187 => vec![3, 0, a, protected, 8, 7, 0x7E, 0, 0x44, other],
            188..=199 => vec![3, 0, a, 1, 8, 7, 0x7E, 0, 0x42, 1, 1],
            200..=211 => [&[7, 0, a, 2], &place[..], &[0; 4]].concat(),
            212..=217 => vec![6, 0, a, self.below(7)],
            218..=223 if a == 0 => vec![4, 0, 5, 0],
            224..=229 if a == 0 => [&[10, 0], &place[..3]].concat(),
            230..=236 => vec![4, 0, 4, 0],
            237 | 238 => vec![5, 0],
            239 if self.below(9) == 0 => [&[1, 0], &HOME[..], &SUCI].concat(),
            240 if self.below(9) == 0 => [&[11, 0, 2], &HOME[..], &SUCI].concat(),
            _ => vec![4, 0, [1, 2, 3, 6][self.below(4) as usize], a],
        }
    }

    /// Of the other access's events and T3247 some are left out or altered, and some are put in.
    fn altered(&mut self, octets: &[u8], w: u8) -> Events {
        let free = whose(octets) != Some(w) && !matches!(octets[0], 1 | 5 | 11);
        match self.below(60) {
            0 if free => vec![],
            1 if free => vec![self.logged(1 - w)],
            2 => vec![octets.to_vec(), self.logged(1 - w)],
            _ => vec![octets.to_vec()],
        }
    }
}

/// The access that an event is of; None for a card, a power cycle and T3247, which are of both.
fn whose(octets: &[u8]) -> Option<u8> {
    match octets {
        [1 | 5 | 11, ..] | [4, _, 4, _] => None,
        [10, ..] => Some(0),
        [4, _, _, access] => Some(*access),
        _ => Some(octets[2]),
    }
}

/// The answers to the events of access `w`, and R-12's events for it, read off events and answers:
/// its taken ones and those of both, and of a taken protected 27 of the other the network alone,
/// which is that of the other's last taken start or update.
fn run(events: &Events, w: u8) -> (Vec<u8>, Vec<Own>) {
    let (mut record, mut answers, mut own, mut sought) = (apart(), vec![], vec![], vec![]);
    for octets in events {
        let answer = apply(&mut record, octets).answer;
        answers.extend((whose(octets) == Some(w)).then_some(answer));
        let event = match octets[..] {
            _ if answer != 0 => continue,
            _ if whose(octets) != Some(1 - w) => octets,
            [3, _, _, 1, _, _, 0x7E, 0, 0x44, 27, ..] => &sought,
            [8, _, _, 1, _, _, _, _, 0x7E, 0, 0x44, 27, ..] => &sought,
            [2 | 7, ..] => {
                sought = octets[4..7].to_vec();
                continue;
            }
            _ => continue,
        };
        own.push((event.clone(), record.access[w as usize]));
    }
    (answers, own)
}

/// The access in both, as long as what is kept of the lists agrees: a beginning is a run as well.
fn agreed(lists: &[Vec<Own>; 2], kept: fn(&[u8]) -> bool) -> impl Iterator<Item = [&Access; 2]> {
    let [left, right] = lists.each_ref().map(|list| list.iter().filter(move |own| kept(&own.0)));
    left.zip(right).take_while(|(one, two)| one.0 == two.0).map(|(one, two)| [&one.1, &two.1])
}

/// The entries in all columns, and their order.
fn alike([one, two]: [&Access; 2]) -> bool {
    let columns = |e: &Entry| (e.network, e.ban, e.n1, e.forbidden, e.n1_barred);
    let same = one.entries.iter().map(columns).eq(two.entries.iter().map(columns));
    same && one.order.places() == two.order.places()
}

/// Where R-12's lists of an access agree its entries do, whatever befalls the other, and also with
/// another state, card counter or answer. Without T3247 in the lists, or without the 27s, they may
/// differ.
#[test]
fn entries_follow_from_own_events() {
    let (mut draws, mut pairs, mut seen, mut needed) = (Draws(12), 0, [0; 4], [0; 2]);
    for w in [0, 1].repeat(2000) {
        let turns: Vec<u8> = (0..500).map(|_| draws.below(2)).collect();
        let first: Events = turns.into_iter().map(|a| draws.logged(a)).collect();
        let second: Events = first.iter().flat_map(|octets| draws.altered(octets, w)).collect();
        let [(one, left), (two, right)] = [&first, &second].map(|events| run(events, w));
        let lists = [left, right];
        let whole = lists.iter().all(|list| list.len() == agreed(&lists, |_| true).count());
        pairs += (whole && first != second) as usize;
        seen[0] += (whole && one != two) as usize;
        for [one, two] in agreed(&lists, |_| true) {
            assert!(alike([one, two]), "access {w}: {first:02X?}\n{second:02X?}");
            seen[1] += (one.state != two.state) as usize;
            seen[2] += (one.cards != two.cards) as usize;
            seen[3] += one.entries.full() as usize;
        }
        let parts = |kept| agreed(&lists, kept).any(|pair| !alike(pair)) as usize;
        needed[0] += parts(|event| event != [4, 0, 4, 0]);
        needed[1] += parts(|event| event.len() != 3);
    }
    assert!(pairs > 1000, "{pairs}");
    assert!(seen.iter().all(|&times| times > 5), "{seen:?}");
    assert!(needed.iter().all(|&times| times > 100), "{needed:?}");
}
