// Years on the clock of R-13: a device on random events, whose asking rounds come at random gaps of at most 600 s, by the proved library through its C calls and, beside it, by the
// second program of docs/src. True time has 64 bits and the calls see the low 32. Each timer's deadline is kept in true time, from the replies alone.
// Held, for each of the two by itself: a timer is named once, at or after its deadline, in the first round from then on, and never otherwise; a round names by deadline, of equals
// by slot; after each call a slot is held exactly while its timer runs. And the two reply the same and hold the same table.
// A third of the time a device sleeps as long as the call says, behind a round and behind an event. Held: behind a round that is to the first end of a lap in true time, 600 s at most;
// and a timer is named at its deadline, not later, if no sleep since its start was longer than the call said.
//
// Usage: months YEARS SEED [GAP]
// GAP is the longest gap in milliseconds, 600000 where none is given. Well above 2147483647 the clock cannot tell what is past from what is ahead, and the run has to fail.
#![allow(dead_code)]
#[path = "../../docs/src/card.rs"]
mod card;
#[path = "../../docs/src/deadlines.rs"]
mod deadlines;
#[path = "../../docs/src/log.rs"]
mod log;
#[path = "../../docs/src/message.rs"]
mod message;
#[path = "../../docs/src/record.rs"]
mod record;

use deadlines::{Slot, Table, MOST, NONE, WAIT};
use record::{Change, Limits, Record, Reply, INITIATED, REGISTERED, T3247, T3512};
use std::process::exit;
use std::sync::atomic::{AtomicU64, Ordering::Relaxed};

const NAMES: [&str; NONE] = [
    "T3510 of access 0",
    "T3510 of access 1",
    "T3511 of access 0",
    "T3511 of access 1",
    "T3502 of access 0",
    "T3502 of access 1",
    "T3346 of access 0",
    "T3346 of access 1",
    "T3512",
    "T3247",
];
/// T3512's slot; a slot of an access is twice the timer's place and the access.
const PERIOD: usize = 8;
const GAP: u64 = 600_000;
const LAP: u64 = 2_147_483_647;
const YEAR: u64 = 365 * 86_400_000;
/// 31 times 320 hours, in milliseconds, and its octet.
const LONGEST: u64 = 35_712_000_000;
const LONGEST_OCTET: u8 = 0xDF;
/// How many 32-bit numbers ten places have.
const WORDS: u64 = 280;

const NETWORKS: [[u8; 3]; 4] = [[0x00, 0xF1, 0x10], [0x00, 0xF2, 0x20], [0x00, 0xF3, 0x30], [0x62, 0xF2, 0x20]];
const SUCI: [u8; 9] = [0x01, 0x00, 0xF1, 0x10, 0xF0, 0xFF, 0x00, 0x00, 0x07];
/// Kinds of events, as in a log.
const CARD: u16 = 1;
const START: u16 = 2;
const TIMER: u16 = 4;
const POWER: u16 = 5;
const KEY: u16 = 6;
const UPDATE: u16 = 7;
const MESSAGE: u16 = 8;
const IMPORT: u16 = 10;

/// What is told of the timers, by slot.
type Told = [Change; NONE];
/// The timers that ran out in a round, by slot, and what each one's end told.
type Names = Vec<(usize, Told)>;

/// A record and its table, by one of the two programs.
trait Board {
    fn name(&self) -> &'static str;
    /// An event, and the table armed from its reply: the answer.
    fn event(&mut self, now: u32, kind: u16, body: &[u8]) -> (u32, Told);
    /// The slot due, NONE if none is.
    fn ask(&mut self, now: u32) -> usize;
    fn round(&mut self, now: u32) -> Names;
    /// For how long it may sleep.
    fn wait(&self, now: u32) -> u32;
    fn running(&self) -> [u8; NONE];
    fn states(&self) -> [u8; 2];
    fn table(&self) -> Table;
}

// The structs of include/tjernfaug.h.
#[repr(C)]
#[derive(Clone, Copy, PartialEq)]
struct CNotice {
    offset: u64,
    clocks: [[[u32; 2]; 4]; 2],
    t3247: [u32; 2],
    t3512: [u32; 2],
    requests: [u32; 3],
    changed: u32,
}

#[repr(C)]
#[derive(Clone, Copy, PartialEq)]
struct CRan {
    slot: u32,
    gap: u32,
    notice: CNotice,
}

#[repr(C)]
#[derive(Default)]
struct CDeadlines {
    rests: [u64; NONE],
    ends: [u32; NONE],
    held: [u8; NONE],
}

/// The record's 1256 octets.
type CRecord = [u64; 157];
/// Where in it each slot's timer has its flag, and each access its state.
const FLAGS: [usize; NONE] = [50, 86, 51, 87, 52, 88, 59, 95, 14, 13];
const STATES: [usize; 2] = [46, 82];

extern "C" {
    fn tjernfaug_new(r: &mut CRecord, card: u8, ban: u8, n1: u8, capability: *const u8, capability_len: u64, security: *const u8, security_len: u64) -> u32;
    fn tjernfaug_event(r: &mut CRecord, kind: u32, body: *const u8, len: u64, notice: &mut CNotice) -> u32;
    fn tjernfaug_arm(t: &mut CDeadlines, now: u32, notice: &CNotice) -> u32;
    fn tjernfaug_ask(t: &mut CDeadlines, now: u32) -> u32;
    fn tjernfaug_round(r: &mut CRecord, t: &mut CDeadlines, now: u32, ran: *mut CRan, words: u64) -> u32;
    fn tjernfaug_wait(t: &CDeadlines, now: u32) -> u32;
}

impl CNotice {
    const UNTOLD: CNotice = CNotice { offset: 99, clocks: [[[99; 2]; 4]; 2], t3247: [99; 2], t3512: [99; 2], requests: [99; 3], changed: 99 };

    fn told(&self) -> Told {
        let change = |[told, seconds]: [u32; 2]| match told {
            0 => Change::Left,
            1 => Change::Stopped,
            2 => Change::Started(seconds),
            _ => fail(&format!("the library tells {told} of a timer")),
        };
        std::array::from_fn(|slot| match slot {
            PERIOD => change(self.t3512),
            9 => change(self.t3247),
            _ => change(self.clocks[slot % 2][slot / 2]),
        })
    }
}

struct Library {
    record: CRecord,
    table: CDeadlines,
}

impl Library {
    fn new() -> Library {
        let mut record = [0; 157];
        let (capability, security) = ([0x00], [0xF0, 0xF0]);
        if unsafe { tjernfaug_new(&mut record, 3, 3, 3, capability.as_ptr(), 1, security.as_ptr(), 2) } != 0 {
            fail("the library has no new record");
        }
        Library { record, table: CDeadlines::default() }
    }

    fn octet(&self, place: usize) -> u8 {
        self.record[place / 8].to_le_bytes()[place % 8]
    }
}

impl Board for Library {
    fn name(&self) -> &'static str {
        "the library"
    }

    fn event(&mut self, now: u32, kind: u16, body: &[u8]) -> (u32, Told) {
        let mut notice = CNotice::UNTOLD;
        let answer = unsafe { tjernfaug_event(&mut self.record, kind.into(), body.as_ptr(), body.len() as u64, &mut notice) };
        if unsafe { tjernfaug_arm(&mut self.table, now, &notice) } != 0 {
            fail("the library refuses its own notice");
        }
        if notice.changed > u32::from(answer == 0) {
            fail(&format!("the library tells a change of {} with answer {answer}", notice.changed));
        }
        (answer, notice.told())
    }

    fn ask(&mut self, now: u32) -> usize {
        unsafe { tjernfaug_ask(&mut self.table, now) as usize }
    }

    fn round(&mut self, now: u32) -> Names {
        let untouched = CRan { slot: 99, gap: 99, notice: CNotice::UNTOLD };
        let mut ran = [untouched; MOST];
        let count = unsafe { tjernfaug_round(&mut self.record, &mut self.table, now, ran.as_mut_ptr(), WORDS) } as usize;
        if count > MOST {
            fail(&format!("the library refuses a round: {count}"));
        }
        let (named, behind) = ran.split_at(count);
        if behind.iter().any(|place| *place != untouched) {
            fail("the library writes behind what ran out");
        }
        if named.iter().any(|one| one.notice.changed != 1) {
            fail("the library tells of a timer that ran out and changed nothing");
        }
        named.iter().map(|one| (one.slot as usize, one.notice.told())).collect()
    }

    fn wait(&self, now: u32) -> u32 {
        unsafe { tjernfaug_wait(&self.table, now) }
    }

    fn running(&self) -> [u8; NONE] {
        FLAGS.map(|place| self.octet(place))
    }

    fn states(&self) -> [u8; 2] {
        STATES.map(|place| self.octet(place))
    }

    fn table(&self) -> Table {
        let t = &self.table;
        Table { slots: std::array::from_fn(|slot| Slot { held: t.held[slot], ends: t.ends[slot], rests: t.rests[slot] }) }
    }
}

struct Second {
    record: Record,
    table: Table,
}

impl Second {
    fn new() -> Second {
        Second { record: Record::new(Limits { card: 3, ban: 3, n1: 3 }, &[0x00], &[0xF0, 0xF0]), table: Table::default() }
    }
}

fn by_slot(reply: &Reply) -> Told {
    std::array::from_fn(|slot| match slot {
        PERIOD => reply.timers[T3512],
        9 => reply.timers[T3247],
        _ => reply.timers[slot],
    })
}

impl Board for Second {
    fn name(&self) -> &'static str {
        "the second program"
    }

    fn event(&mut self, now: u32, kind: u16, body: &[u8]) -> (u32, Told) {
        let reply = log::apply(&mut self.record, &[&kind.to_le_bytes(), body].concat());
        self.table.arm(now, &reply);
        (reply.answer.into(), by_slot(&reply))
    }

    fn ask(&mut self, now: u32) -> usize {
        self.table.ask(now).unwrap_or(NONE)
    }

    fn round(&mut self, now: u32) -> Names {
        let ran = deadlines::round(&mut self.record, &mut self.table, now);
        ran.iter().map(|one| (one.slot, by_slot(&one.reply))).collect()
    }

    fn wait(&self, now: u32) -> u32 {
        self.table.wait(now)
    }

    fn running(&self) -> [u8; NONE] {
        let (r, [a, b]) = (&self.record, &self.record.access);
        [a.t3510, b.t3510, a.t3511, b.t3511, a.t3502, b.t3502, a.t3346, b.t3346, r.t3512, r.t3247].map(u8::from)
    }

    fn states(&self) -> [u8; 2] {
        self.record.access.map(|access| access.state)
    }

    fn table(&self) -> Table {
        self.table.clone()
    }
}

/// The life that runs, by its seed, and true time in it.
static SEED: AtomicU64 = AtomicU64::new(0);
static TIME: AtomicU64 = AtomicU64::new(0);

fn fail(what: &str) -> ! {
    let (seed, time) = (SEED.load(Relaxed), TIME.load(Relaxed));
    eprintln!("months: seed {seed}, at {time} ms, {} on the clock: {what}", time as u32);
    exit(1)
}

/// A timer in true time, in milliseconds.
#[derive(Clone, Copy)]
struct Timer {
    start: u64,
    length: u64,
    /// No sleep since its start was longer than the board said.
    prompt: bool,
}

impl Timer {
    fn deadline(&self) -> u64 {
        self.start + self.length
    }

    /// The end of the lap that runs.
    fn lap(&self, now: u64) -> u64 {
        self.deadline().min(self.start + LAP * ((now - self.start) / LAP + 1))
    }
}

/// The timers that run, by what was told of them.
#[derive(Clone, Copy, Default)]
struct Truth([Option<Timer>; NONE]);

impl Truth {
    fn hear(&mut self, now: u64, told: &Told) {
        for (timer, change) in self.0.iter_mut().zip(told) {
            match *change {
                Change::Left => {}
                Change::Stopped => *timer = None,
                Change::Started(seconds) => *timer = Some(Timer { start: now, length: 1000 * seconds as u64, prompt: true }),
            }
        }
    }

    /// The first to be named at a time: its deadline and its slot.
    fn first(&self, now: u64) -> Option<(u64, usize)> {
        let ends = self.0.iter().enumerate().filter_map(|(slot, timer)| Some((timer.as_ref()?.deadline(), slot)));
        ends.filter(|(deadline, _)| *deadline <= now).min()
    }

    /// To the first end of a lap, 600 s at most.
    fn wait(&self, now: u64) -> u64 {
        self.0.iter().flatten().map(|timer| timer.lap(now) - now).fold(WAIT.into(), u64::min)
    }

    fn held(&self) -> [u8; NONE] {
        self.0.map(|timer| timer.is_some().into())
    }
}

struct Draws(u64);

impl Draws {
    fn next(&mut self) -> u64 {
        self.0 = self.0.wrapping_add(0x9E37_79B9_7F4A_7C15);
        let mixed = (self.0 ^ self.0 >> 30).wrapping_mul(0xBF58_476D_1CE4_E5B9);
        let mixed = (mixed ^ mixed >> 27).wrapping_mul(0x94D0_49BB_1331_11EB);
        mixed ^ mixed >> 31
    }

    fn below(&mut self, bound: u64) -> u64 {
        self.next() % bound
    }

    fn octet(&mut self) -> u8 {
        self.next() as u8
    }

    fn one_in(&mut self, bound: u64) -> bool {
        self.below(bound) == 0
    }

    fn of<T: Copy>(&mut self, items: &[T]) -> T {
        items[self.below(items.len() as u64) as usize]
    }

    /// A network and an area code.
    fn area(&mut self) -> [u8; 6] {
        let [a, b, c] = self.of(&NETWORKS);
        [a, b, c, 0, 0, self.octet() % 4]
    }

    /// T3512's octet: mostly the longest, often one of its unit, else any.
    fn period(&mut self) -> u8 {
        match self.below(8) {
            0..=4 => LONGEST_OCTET,
            5 => 0xC0 | self.octet() & 31,
            _ => self.octet(),
        }
    }
}

/// A board and its timers in true time.
struct Site {
    board: Box<dyn Board>,
    truth: Truth,
}

impl Site {
    fn new(board: impl Board + 'static) -> Site {
        Site { board: Box::new(board), truth: Truth::default() }
    }

    fn event(&mut self, now: u64, kind: u16, body: &[u8]) -> (u32, Told) {
        let (answer, told) = self.board.event(now as u32, kind, body);
        self.truth.hear(now, &told);
        self.agree();
        (answer, told)
    }

    /// An ask names what is first in true time, and nothing runs out.
    fn ask(&mut self, now: u64) {
        let (named, first) = (self.board.ask(now as u32), self.truth.first(now).map_or(NONE, |(_, slot)| slot));
        if named != first {
            self.fault(&format!("is asked and names {}, where true time has {}", shown(named), shown(first)));
        }
        self.agree();
    }

    /// For how long the board lets it sleep.
    fn wait(&self, now: u64) -> u64 {
        self.board.wait(now as u32).into()
    }

    /// A sleep, and how long the board lets it be.
    fn sleep(&mut self, now: u64, to: u64) -> u64 {
        let most = self.wait(now);
        for timer in self.truth.0.iter_mut().flatten() {
            timer.prompt &= to - now <= most;
        }
        most
    }

    /// A round: each name is what is first in true time, and none that is due is left, so that each is named in the first round from its deadline on. And the timers that ran out.
    fn round(&mut self, now: u64) -> (Names, Vec<Timer>) {
        let names = self.board.round(now as u32);
        let mut met = Vec::new();
        for (slot, told) in &names {
            let first = self.truth.first(now).map_or(NONE, |(_, slot)| slot);
            if first != *slot {
                self.fault(&format!("names {}, where true time has {}", shown(*slot), shown(first)));
            }
            if told[*slot] == Change::Left {
                self.fault(&format!("leaves {} running, which ran out", NAMES[*slot]));
            }
            let timer = self.truth.0[*slot];
            if timer.is_some_and(|timer| timer.prompt && timer.deadline() < now) {
                self.fault(&format!("names {} late, though no sleep was longer than it said", NAMES[*slot]));
            }
            met.extend(timer);
            self.truth.hear(now, told);
        }
        if let Some((_, slot)) = self.truth.first(now) {
            self.fault(&format!("does not name {}, whose deadline is past", NAMES[slot]));
        }
        let (said, left) = (self.wait(now), self.truth.wait(now));
        if said != left {
            self.fault(&format!("lets it sleep for {said} ms, where true time has {left}"));
        }
        self.agree();
        (names, met)
    }

    /// A slot is held exactly while its timer runs, and that is while it was told to.
    fn agree(&self) {
        let (held, runs, told) = (self.board.table().slots.map(|slot| slot.held), self.board.running(), self.truth.held());
        if held != runs || runs != told {
            self.fault(&format!("holds {held:?} and runs {runs:?}, where the replies told {told:?}"));
        }
    }

    fn fault(&self, what: &str) -> ! {
        fail(&format!("{} {what}", self.board.name()))
    }
}

fn shown(slot: usize) -> &'static str {
    NAMES.get(slot).unwrap_or(&"none")
}

#[derive(Default)]
struct Tally {
    passed: u64,
    wraps: u64,
    rounds: u64,
    names: u64,
    longest: u64,
    laps: u64,
    prompt: u64,
    punctual: u64,
    late: u64,
    ties: u64,
    zeros: u64,
    missed: u64,
}

impl Tally {
    fn round(&mut self, now: u64, met: &[Timer]) {
        self.rounds += 1;
        self.names += met.len() as u64;
        self.ties += met.windows(2).filter(|pair| pair[0].deadline() == pair[1].deadline()).count() as u64;
        for timer in met {
            self.late = self.late.max(now - timer.deadline());
            self.longest += u64::from(timer.length == LONGEST);
            self.prompt += u64::from(timer.prompt && timer.start < now);
            self.punctual += u64::from(timer.prompt && timer.length == LONGEST);
            self.laps += if timer.length > LAP { timer.length.div_ceil(LAP) } else { 0 };
            self.zeros += u64::from(timer.length == 0 && timer.start == now);
        }
    }
}

/// A device from its first card on.
struct Life<'a> {
    draws: Draws,
    sites: [Site; 2],
    /// True time, and that of the next round.
    now: u64,
    next: u64,
    /// The longest gap.
    gap: u64,
    /// Whether it sleeps as long as the call says.
    sleeper: bool,
    tally: &'a mut Tally,
}

impl Life<'_> {
    /// True time goes on.
    fn pass(&mut self, to: u64) {
        let [ours, theirs] = self.sites.each_mut().map(|site| site.sleep(self.now, to));
        if ours != theirs {
            fail(&format!("the library lets it sleep for {ours} ms, the second program for {theirs}"));
        }
        self.tally.passed += to - self.now;
        self.tally.wraps += (to >> 32) - (self.now >> 32);
        self.now = to;
        TIME.store(to, Relaxed);
    }

    /// An event, at once or later before the next round.
    fn event(&mut self, kind: u16, body: &[u8]) {
        if self.draws.one_in(2) {
            let later = self.draws.below(self.next - self.now + 1);
            self.pass(self.now + later);
        }
        let before = self.sites[0].truth;
        let [ours, theirs] = self.sites.each_mut().map(|site| site.event(self.now, kind, body));
        if ours != theirs {
            fail(&format!("event {kind} {body:?}: the library replies {ours:?}, the second program {theirs:?}"));
        }
        self.alike();
        let stopped = |slot: usize| ours.1[slot] == Change::Stopped && before.0[slot].is_some_and(|timer| timer.deadline() < self.now);
        self.tally.missed += (0..NONE).filter(|&slot| stopped(slot)).count() as u64;
        if self.sleeper {
            self.next = self.next.min(self.now + self.sites[0].wait(self.now));
        }
    }

    fn round(&mut self, brief: bool) {
        self.pass(self.next);
        if self.draws.one_in(4) {
            self.sites.iter_mut().for_each(|site| site.ask(self.now));
        }
        let [ours, theirs] = self.sites.each_mut().map(|site| site.round(self.now));
        if ours.0 != theirs.0 {
            fail(&format!("a round: the library has {:?}, the second program {:?}", ours.0, theirs.0));
        }
        self.alike();
        self.tally.round(self.now, &ours.1);
        let gap = if self.sleeper { self.sites[0].wait(self.now).min(self.gap) } else { self.drawn_gap(brief) };
        self.next = self.now + gap;
    }

    fn alike(&self) {
        let [ours, theirs] = self.sites.each_ref().map(|site| site.board.table().slots);
        if let Some(slot) = (0..NONE).find(|&slot| ours[slot] != theirs[slot]) {
            fail(&format!("of {} the library has {:?}, the second program {:?}", NAMES[slot], ours[slot], theirs[slot]));
        }
    }

    /// The gap to the next round: none, short, the longest, any, or one that meets the end of a lap.
    fn drawn_gap(&mut self, brief: bool) -> u64 {
        match self.draws.below(16) {
            0 => 0,
            1..=3 => self.met_gap(),
            4..=9 if brief => self.draws.below(20_000),
            1..=8 => self.gap - self.draws.below(3),
            _ => self.draws.below(self.gap + 1),
        }
    }

    /// To the end of a lap or a millisecond off, if one ends before the longest gap.
    fn met_gap(&mut self) -> u64 {
        let ends = self.sites[0].truth.0.iter().flatten().map(|timer| timer.lap(self.now) - self.now);
        let near: Vec<u64> = ends.filter(|gap| *gap < self.gap).collect();
        if near.is_empty() {
            return self.draws.below(self.gap + 1);
        }
        (self.draws.of(&near) + self.draws.below(3)).saturating_sub(1)
    }

    fn state(&self, a: u8) -> u8 {
        self.sites[0].board.states()[a as usize]
    }

    fn start(&mut self, a: u8, manual: u8) {
        let area = self.draws.area();
        self.event(START, &[&[a, manual], &area[..]].concat());
    }

    fn update(&mut self, a: u8) {
        let (area, kind) = (self.draws.area(), self.draws.of(&[2, 3]));
        self.event(UPDATE, &[&[a, kind], &area[..], &[0; 4]].concat());
    }

    fn message(&mut self, a: u8, protected: u8, octets: &[u8]) {
        let [t3247, t3346] = [1800 + self.draws.below(1801), 900 + self.draws.below(901)].map(|drawn| (drawn as u16).to_le_bytes());
        self.event(MESSAGE, &[&[a, protected], &t3247[..], &t3346, octets].concat());
    }

    /// An accept; T3502 has often no length.
    fn accept(&mut self, a: u8) {
        let mut octets = vec![0x7E, 0x00, 0x42, 0x01, 0x01];
        if !self.draws.one_in(4) {
            octets.extend([0x5E, 0x01, self.draws.period()]);
        }
        if !self.draws.one_in(4) {
            octets.extend([0x16, 0x01, self.draws.octet() * self.draws.below(2) as u8]);
        }
        self.message(a, 1, &octets);
    }

    fn reject(&mut self, a: u8) {
        let any = self.draws.octet();
        let cause = self.draws.of(&[3, 6, 7, 11, 12, 13, 15, 22, 22, 27, 72, 73, 95, 96, 97, 99, 111, any]);
        let reject = [0x7E, 0x00, 0x44, cause, 0x5F, 0x01, self.draws.octet()];
        let (length, protected) = (self.draws.of(&[4, 7]), self.draws.below(2) as u8);
        self.message(a, protected, &reject[..length]);
    }

    /// What an access does in its state.
    fn go(&mut self, a: u8) {
        match (self.state(a), self.draws.below(4)) {
            (INITIATED, 0) => self.accept(a),
            (INITIATED, 1 | 2) => self.reject(a),
            (INITIATED, _) => {}
            (REGISTERED, _) => self.update(a),
            _ => {
                let manual = self.draws.below(2) as u8;
                self.start(a, manual);
            }
        }
    }

    fn card(&mut self) {
        self.event(CARD, &[&NETWORKS[0][..], &SUCI].concat());
    }

    /// Any event; few stop everything.
    fn any(&mut self) {
        let a = self.draws.below(2) as u8;
        match self.draws.below(200) {
            0 => self.card(),
            1..=3 => self.event(POWER, &[]),
            4..=5 => {
                let file = self.draws.of(&NETWORKS);
                self.event(IMPORT, &file);
            }
            6..=9 => {
                let number = self.draws.octet() % 8;
                self.event(TIMER, &[number, a]);
            }
            10..=14 => {
                let set = self.draws.octet() % 8;
                self.event(KEY, &[a, set]);
            }
            15..=19 => {
                let kind = self.draws.of(&[0, 3, 9, 11, 12, 65535]);
                self.event(kind, &[a, 0, 0]);
            }
            20..=29 => self.start(a, 1),
            30..=39 => self.reject(a),
            40..=49 => self.accept(a),
            _ => self.go(a),
        }
    }

    /// Access 0 registered, with a new time for T3512: by an update, or after a power cycle.
    fn settle(&mut self) {
        if self.state(0) == REGISTERED && self.draws.one_in(2) {
            self.update(0);
        } else {
            self.event(POWER, &[]);
            self.start(0, 1);
        }
        self.accept(0);
    }

    /// Events on both accesses, then, while access 0 rests, on access 1 alone until T3512 is out.
    fn chapter(&mut self) {
        self.sleeper = self.draws.one_in(3);
        for _ in 0..300 {
            for _ in 0..self.draws.below(4) {
                self.any();
            }
            self.round(true);
        }
        self.settle();
        while self.sites[0].truth.0[PERIOD].is_some() {
            if self.draws.one_in(30) {
                self.go(1);
            }
            self.round(false);
        }
    }
}

fn live(seed: u64, gap: u64, tally: &mut Tally) {
    SEED.store(seed, Relaxed);
    let mut draws = Draws(seed);
    let now = draws.below(1 << 40);
    let sites = [Site::new(Library::new()), Site::new(Second::new())];
    let mut life = Life { draws, sites, now, next: now, gap, sleeper: false, tally };
    // No timer runs yet, so no round is asked for.
    life.card();
    let first = now + life.draws.below(1 << 33);
    life.pass(first);
    life.next = first + life.drawn_gap(true);
    for _ in 0..4 {
        life.chapter();
    }
}

fn main() {
    let words: Vec<u64> = std::env::args().skip(1).map(|word| word.parse().unwrap_or_else(|_| fail("a number is wanted"))).collect();
    let (years, seed, gap) = match words[..] {
        [years, seed] => (years, seed, GAP),
        [years, seed, gap] => (years, seed, gap.max(3)),
        _ => fail("usage: months YEARS SEED [GAP]"),
    };
    let mut tally = Tally::default();
    let mut lives = 0;
    while tally.passed < years * YEAR {
        live(seed + lives, gap, &mut tally);
        lives += 1;
    }
    let Tally { passed, wraps, rounds, names, longest, laps, prompt, punctual, late, ties, zeros, missed } = tally;
    println!(
        "months: {} years in {rounds} rounds of {lives} devices from seed {seed} on: {names} timers named, {longest} of them T3512 after 413 days, {laps} laps, \
         {wraps} wraps of the clock, {ties} ties, {zeros} started for 0 s in their round, {missed} stopped past their deadline, none more than {late} ms late: \
         each once, in the first round and in order; {prompt} behind sleeps no longer than the call said, {punctual} of them T3512 after 413 days, and not late at all",
        passed / YEAR
    );
}
