// Writes event logs for comparing programs, the same for the same seed.
//
//   generate SEED EVENTS [realistic|wild]   a log on standard output
//   generate pieces SEED                    copies standard input in odd pieces
//
// A realistic log has whole records only, few of them refused as out of range, and one message
// in twenty-five with a fault. A wild log has damaged ones too and may end in a cut record. The
// state is followed with the record of docs/src, so that starts, updates, messages and timers
// come when they have an effect.

#[path = "../../../docs/src/card.rs"]
mod card;
#[allow(dead_code)]
#[path = "../../../docs/src/log.rs"]
mod log;
#[allow(dead_code)]
#[path = "../../../docs/src/message.rs"]
mod message;
#[allow(dead_code)]
#[path = "../../../docs/src/record.rs"]
mod record;

use record::{Limits, Record};
use std::io::{self, Read, Write};

/// SplitMix64.
struct Random(u64);

impl Random {
    fn next(&mut self) -> u64 {
        self.0 = self.0.wrapping_add(0x9E37_79B9_7F4A_7C15);
        let mut word = self.0;
        word = (word ^ (word >> 30)).wrapping_mul(0xBF58_476D_1CE4_E5B9);
        word = (word ^ (word >> 27)).wrapping_mul(0x94D0_49BB_1331_11EB);
        word ^ (word >> 31)
    }

    fn below(&mut self, bound: usize) -> usize {
        (self.next() % bound as u64) as usize
    }

    fn octet(&mut self) -> u8 {
        self.next() as u8
    }

    fn octets(&mut self, count: usize) -> Vec<u8> {
        (0..count).map(|_| self.octet()).collect()
    }

    /// True in `percent` of a hundred calls.
    fn odds(&mut self, percent: usize) -> bool {
        self.below(100) < percent
    }

    fn pick<T: Copy>(&mut self, items: &[T]) -> T {
        items[self.below(items.len())]
    }
}

/// What a stretch of the log leans to.
#[derive(Clone, Copy, PartialEq)]
enum Phase {
    Mixed,
    Areas,
    Networks,
    Cards,
    Attempts,
    Register,
    Manual,
    /// Registered, and updates that are accepted or rejected.
    Moving,
    /// Registered, and updates that are not answered.
    Lost,
    /// A network that asks for time, at starts and at updates.
    Busy,
    /// Networks that bar N1 over one access and then over the other.
    Both,
    /// The card's file is read between bans and what lifts them, and into tables that are full.
    Imports,
    /// More networks than an access has entries, with T3247 out and imports between them.
    Places,
}

const PHASES: [Phase; 22] = [
    Phase::Mixed,
    Phase::Mixed,
    Phase::Mixed,
    Phase::Areas,
    Phase::Networks,
    Phase::Cards,
    Phase::Attempts,
    Phase::Register,
    Phase::Manual,
    Phase::Moving,
    Phase::Moving,
    Phase::Moving,
    Phase::Lost,
    Phase::Lost,
    Phase::Busy,
    Phase::Busy,
    Phase::Busy,
    Phase::Both,
    Phase::Imports,
    Phase::Places,
    Phase::Places,
    Phase::Places,
];

/// The cause with which a network may ask for time.
const CONGESTION: u8 = 22;

const CAUSES: [u8; 24] =
    [3, 6, 7, 11, 73, 12, 13, 15, 27, 72, 95, 96, 97, 99, 111, 22, 5, 9, 10, 11, 27, 13, 62, 0];
const ONE: [u8; 6] = [0x80, 0x9F, 0xA1, 0xB0, 0xFF, 0xD2];
const SHORT: [u8; 12] = [0x10, 0x2E, 0x52, 0x5E, 0x5F, 0x15, 0x27, 0x31, 0x6F, 0x34, 0x4A, 0x16];
/// T3502 and T3346: 0 s, the most of each unit, and deactivated.
const TIMERS: [u8; 5] = [0x00, 0x1F, 0x3F, 0x5F, 0xE5];
/// T3512: zero, one and the most of each unit, and deactivated.
const PERIODS: [u8; 16] = [
    0x00, 0x01, 0x1F, 0x21, 0x3F, 0x41, 0x5F, 0x61, 0x7F, 0x81, 0x9F, 0xA1, 0xBF, 0xC1, 0xDF, 0xE5,
];
const LONG: [u8; 7] = [0x70, 0x71, 0x72, 0x75, 0x79, 0x7F, 0x77];
/// How many places of the card's file a log record has at most.
const PLACES: usize = (65535 - 2) / 3;
/// Messages that a network or a device sends and no event reads.
const TYPES: [u8; 8] = [0x41, 0x43, 0x45, 0x54, 0x56, 0x5D, 0x64, 0x68];

/// Two- and three-digit MNCs; the first three are homes. Each of the first eight differs from
/// three others in one octet alone, so that a network compared on two octets shows.
fn network(index: usize) -> [u8; 3] {
    if index < 8 {
        let bit = |place: usize, octets: [u8; 2]| octets[index >> place & 1];
        return [bit(2, [0x00, 0x10]), bit(1, [0xF1, 0x11]), bit(0, [0x00, 0x20])];
    }
    let digit = |value: usize| (value % 10) as u8;
    let third = if index % 3 == 2 { digit(index + 4) } else { 15 };
    [digit(index / 10) << 4, third << 4 | digit(index + 1), digit(index) << 4 | digit(index / 7)]
}

/// The oldest area of a full list.
fn first(areas: &record::Areas) -> Option<record::Area> {
    areas.full().then(|| areas[0].area)
}

/// How many messages of a hundred with these fixed octets have elements.
fn longer(octets: &[u8]) -> usize {
    match octets[2..] {
        [0x42, ..] => 80,
        [_, CONGESTION] => 85,
        _ => 20,
    }
}

struct Generator {
    random: Random,
    record: Record,
    wild: bool,
    phase: Phase,
    left: usize,
    fresh: usize,
    past: Vec<record::Area>,
    dropped: Option<record::Area>,
}

impl Generator {
    fn new(seed: u64, wild: bool) -> Generator {
        Generator {
            random: Random(seed.wrapping_mul(0xD129_0B26_2F0A_53B5) ^ wild as u64),
            record: Record::new(Limits { card: 3, ban: 3, n1: 3 }, &[0], &[0xF0, 0xF0]),
            wild,
            phase: Phase::Mixed,
            left: 40,
            fresh: 0,
            past: Vec::new(),
            dropped: None,
        }
    }

    /// True in `percent` of a hundred calls for a wild log, else never.
    fn spoil(&mut self, percent: usize) -> bool {
        self.wild && self.random.odds(percent)
    }

    fn access(&mut self, a: usize) -> u8 {
        if self.spoil(2) {
            self.random.pick(&[2, 3, 128, 255])
        } else {
            a as u8
        }
    }

    fn flag(&mut self, percent: usize) -> u8 {
        if self.spoil(2) {
            self.random.pick(&[2, 3, 0x80, 0xFF])
        } else {
            self.random.odds(percent) as u8
        }
    }

    fn code(&mut self, mut code: [u8; 3]) -> [u8; 3] {
        if self.spoil(3) {
            let half = self.random.below(6);
            let digit = 10 + self.random.below(6) as u8;
            let octet = &mut code[half / 2];
            *octet = if half % 2 == 0 { *octet & 15 | digit << 4 } else { *octet & 0xF0 | digit };
        }
        code
    }

    /// Of kind 1 or, more often, of kind 11 with an edition, few of a wild log with another.
    fn card(&mut self) -> Vec<u8> {
        let index = self.random.below(3);
        let mut body = vec![1, 0];
        if self.random.odds(70) {
            let edition = 1 + self.random.below(3) as u8;
            let other = self.spoil(10).then(|| self.random.pick(&[0, 4, 128, 255]));
            body = vec![11, 0, other.unwrap_or(edition)];
        }
        let home = self.code(network(index));
        body.extend(home);
        let mut length = self.random.pick(&[9, 9, 9, 10, 13, 32, 64]);
        if self.spoil(10) {
            length = self.random.pick(&[0, 1, 8, 65, 66, 200]);
        }
        let mut suci = self.random.octets(length);
        if let Some(first) = suci.first_mut() {
            *first = if self.wild && self.random.odds(10) { self.random.octet() } else { 1 };
        }
        body.extend(suci);
        body
    }

    /// A network that has an entry on access 0, or that starts name.
    fn known_network(&mut self) -> [u8; 3] {
        let entries = self.record.access[0].entries;
        if !entries.is_empty() && self.random.odds(50) {
            return entries[self.random.below(entries.len())].network.octets();
        }
        network(self.random.below(8))
    }

    /// None, some or all of the networks that have an entry on access 0, and as many new ones as
    /// there are free entries, one more or four more.
    fn filling(&mut self) -> Vec<[u8; 3]> {
        let access = self.record.access[0];
        let room = 16 - access.entries.len() + self.random.pick(&[0, 0, 1, 4]);
        let first = 8 + self.random.below(50);
        let new = (first..).map(network).filter(|network| access.entry(network).is_none());
        let share = self.random.pick(&[0, 50, 100]);
        let known = access.entries.iter().filter(|_| self.random.odds(share));
        known.map(|entry| entry.network.octets()).chain(new.take(room)).collect()
    }

    /// The card's file: a few networks or a filling one's, and among them unused places and doubles.
    fn file(&mut self) -> Vec<[u8; 3]> {
        let mut file = Vec::new();
        if self.random.odds(if self.phase == Phase::Imports { 25 } else { 5 }) {
            file = self.filling();
        } else {
            let count = self.random.below(5);
            file.extend((0..count).map(|_| self.known_network()));
        }
        for _ in 0..self.random.below(5) {
            let double = file.get(self.random.below(3 * file.len() + 1));
            let code = double.copied().unwrap_or(card::UNUSED);
            file.insert(self.random.below(file.len() + 1), code);
        }
        file
    }

    /// In a wild log also of a file as long as a record may be, or that ends within a place.
    fn import(&mut self) -> Vec<u8> {
        let mut file: Vec<[u8; 3]> = self.file().into_iter().map(|code| self.code(code)).collect();
        if self.wild && !file.is_empty() && self.random.below(100) == 0 {
            file = file.repeat(1 + self.random.below(PLACES / file.len()));
        }
        let mut body = [&[10, 0], file.as_flattened()].concat();
        if self.spoil(6) {
            body.extend(self.random.pick(&[&[0x00][..], &[0xFF], &[0x00, 0xF1], &[0xFF, 0xFF]]));
        }
        body
    }

    /// A network that has no entry, in most cases, or one that has.
    fn passed(&mut self, a: usize) -> [u8; 3] {
        let access = self.record.access[a];
        let known = if access.entries.full() { 30 } else { 8 };
        if self.random.odds(known) && !access.entries.is_empty() {
            return access.entries[self.random.below(access.entries.len())].network.octets();
        }
        let first = 8 + self.random.below(40);
        let mut new = (first..).map(network).filter(|network| access.entry(network).is_none());
        new.next().unwrap_or(self.record.home)
    }

    /// A network that may be started, in most cases.
    fn choose(&mut self, a: usize) -> [u8; 3] {
        let mut chosen = self.record.home;
        if self.phase == Phase::Places && self.random.odds(95) {
            return self.passed(a);
        }
        let entries = &self.record.access[a].entries;
        if self.phase == Phase::Manual && entries.len() > 2 && self.random.odds(70) {
            return entries[self.random.below(3)].network.octets();
        }
        if self.phase == Phase::Imports && !entries.is_empty() && self.random.odds(50) {
            return entries[self.random.below(entries.len())].network.octets();
        }
        if self.random.odds(20) {
            return chosen;
        }
        for _ in 0..3 {
            let pool = if self.phase == Phase::Networks { 40 } else { 8 };
            chosen = network(self.random.below(pool));
            let entry = self.record.access[a].entry(&chosen);
            if !entry.is_some_and(|entry| entry.forbidden || entry.n1_barred) {
                break;
            }
        }
        chosen
    }

    fn area(&mut self) -> [u8; 3] {
        if self.phase == Phase::Areas && self.random.odds(80) {
            self.fresh += 1;
            return [1, (self.fresh >> 8) as u8, self.fresh as u8];
        }
        [0, self.random.below(3) as u8, self.random.below(24) as u8]
    }

    /// An area of one of the lists, the oldest of a full one often.
    fn listed(&mut self) -> Option<record::Area> {
        let mut lists = [&self.record.roaming, &self.record.regional];
        if self.random.odds(50) {
            lists.reverse();
        }
        let listed = if lists[0].is_empty() { lists[1] } else { lists[0] };
        if listed.is_empty() {
            return None;
        }
        let oldest = listed.full() && self.random.odds(50);
        let place = if oldest { 0 } else { self.random.below(listed.len()) };
        Some(listed[place].area)
    }

    /// Sometimes an area that stands on a list, or one started before that may have left it.
    fn again(&mut self) -> Option<record::Area> {
        if !self.random.odds(8) {
            return None;
        }
        if self.dropped.is_some() && self.random.odds(20) {
            return self.dropped.take();
        }
        if self.random.odds(50) {
            let listed = self.listed();
            if listed.is_some() {
                return listed;
            }
        }
        let past = self.past.len().min(64);
        (past > 0).then(|| self.past[self.past.len() - 1 - self.random.below(past)])
    }

    /// The network and the area code to register in.
    fn place(&mut self, a: usize) -> record::Area {
        let chosen = self.choose(a);
        let place = self.again().unwrap_or_else(|| {
            let ([n1, n2, n3], [c1, c2, c3]) = (self.code(chosen), self.area());
            [n1, n2, n3, c1, c2, c3]
        });
        self.past.push(place);
        if self.past.len() > 200 {
            self.past.drain(..100);
        }
        place
    }

    fn start(&mut self, a: usize) -> Vec<u8> {
        let access = self.access(a);
        let manual = self.flag(match self.phase {
            Phase::Manual | Phase::Imports => 50,
            Phase::Places => 40,
            _ => 15,
        });
        let mut body = vec![2, 0, access, manual];
        let place = self.place(a);
        let waits = self.record.access[a].t3346;
        body.extend(if waits { self.near(a, place) } else { place });
        body
    }

    /// The type of an update: periodic ones come when due, and sometimes when they are not.
    fn kind(&mut self, a: usize) -> u8 {
        if self.spoil(6) {
            return self.random.pick(&[0, 1, 4, 255]);
        }
        let due = a == 0 && self.record.due;
        2 + self.random.odds(if due { 60 } else { 8 }) as u8
    }

    /// The two octets of 40 or 50, no session in `none` of a hundred; session 0 only in wild logs.
    fn sessions(&mut self, none: usize) -> [u8; 2] {
        if self.random.odds(none) {
            return [0, 0];
        }
        let octets = [self.random.octet(), self.random.octet()];
        let zero = self.spoil(6) as u8;
        [octets[0] & 0xFE | zero, octets[1]]
    }

    /// Where the device is, in the other access's network, one with an entry, a listed area, or
    /// else this place. While T3346 runs it is one of these mostly, so that 7, 8 and 9 hold too.
    fn near(&mut self, a: usize, mut place: record::Area) -> record::Area {
        let [this, other] = [a, 1 - a].map(|a| self.record.access[a]);
        match self.random.below(if this.t3346 { 10 } else { 20 }) {
            0..=4 => place = this.pending,
            5 => place[..3].copy_from_slice(&other.pending[..3]),
            6 if !this.entries.is_empty() => {
                let entry = self.random.below(this.entries.len());
                place[..3].copy_from_slice(&this.entries[entry].network.octets());
            }
            7..=8 => place = self.listed().unwrap_or(place),
            _ => {}
        }
        place
    }

    fn update(&mut self, a: usize) -> Vec<u8> {
        let mut body = vec![7, 0, self.access(a), self.kind(a)];
        let place = self.place(a);
        body.extend(self.near(a, place));
        body.extend(self.sessions(40));
        body.extend(self.sessions(20));
        body
    }

    /// A draw between these ends, often one of them; some of a wild log are outside.
    fn draw(&mut self, low: u16, high: u16) -> [u8; 2] {
        let draw = if self.spoil(3) {
            let turned = [low.swap_bytes(), high.swap_bytes()];
            self.random.pick(&[0, 1, low - 1, high + 1, turned[0], turned[1], 65535])
        } else if self.random.odds(20) {
            self.random.pick(&[low, high])
        } else {
            low + self.random.below(usize::from(high - low) + 1) as u16
        };
        draw.to_le_bytes()
    }

    /// A message's record up to the message: of kind 3, or of kind 8 with a second draw.
    fn heard(&mut self, a: usize, protected: usize) -> Vec<u8> {
        let kind = self.random.pick(&[3, 8]);
        let mut body = vec![kind, 0, self.access(a), self.flag(protected)];
        body.extend(self.draw(1800, 3600));
        if kind == 8 {
            body.extend(self.draw(900, 1800));
        }
        body
    }

    /// Registered, or waiting for the answer to an update: what the two-access rule asks.
    fn counts(&self, a: usize) -> bool {
        self.record.access[a].state == 5 || self.updating(a)
    }

    fn cause(&mut self, a: usize) -> u8 {
        match self.phase {
            Phase::Areas => self.random.pick(&[12, 12, 12, 13, 15]),
            Phase::Networks => self.random.pick(&[11, 73, 27, 72, 11, 27]),
            Phase::Cards => self.random.pick(&[3, 6, 7]),
            Phase::Manual => self.random.pick(&[11, 73, 11, 27, 22]),
            Phase::Attempts => self.random.pick(&[22, 5, 9, 95, 111, 72, 12]),
            Phase::Moving if self.counts(1 - a) && self.random.odds(60) => {
                self.random.pick(&[3, 6, 7])
            }
            Phase::Moving => self.random.pick(&[11, 73, 12, 13, 15, 27, 72, 22, 97, 7]),
            Phase::Lost => self.random.pick(&[22, 9, 10, 98, 22, 5, 96, 72]),
            Phase::Busy => self.random.pick(&[22, 22, 22, 22, 22, 22, 22, 11, 15, 27, 9, 111]),
            Phase::Both => self.random.pick(&[27, 27, 27, 27, 72, 11]),
            Phase::Imports => self.random.pick(&[11, 11, 11, 73, 27, 22]),
            Phase::Places => self.random.pick(&[11, 11, 73, 27, 27, 72, 72]),
            _ if self.wild && self.random.odds(10) => self.random.octet(),
            _ => self.random.pick(&CAUSES),
        }
    }

    /// One element with an identifier and `length` octets of contents, by its format.
    fn element(&mut self, identifier: u8, length: usize) -> Vec<u8> {
        let mut octets = vec![identifier];
        match identifier {
            0x70..=0x7F => octets.extend((length as u16).to_be_bytes()),
            0x80..=0xFF => return octets,
            _ => octets.push(length as u8),
        }
        octets.extend(self.random.octets(length));
        octets
    }

    fn unknown(&mut self) -> Vec<u8> {
        match self.random.below(if self.wild { 10 } else { 3 }) {
            0 | 3 => vec![self.random.pick(&ONE)],
            1 | 4 => {
                let identifier = self.random.pick(&SHORT[..10]);
                let length = self.random.below(9);
                self.element(identifier, length)
            }
            2 | 5 => {
                let identifier = self.random.pick(&LONG[..6]);
                let length = self.random.below(20);
                self.element(identifier, length)
            }
            6 if self.random.odds(40) => {
                let octet = self.random.octet() & 15;
                vec![self.random.pick(&[0x00, 0x0F, octet]), 0]
            }
            7 if self.random.odds(10) => vec![0x7A],
            8 if self.random.odds(10) => vec![0x7A, 0xFF, 0xFE, 1],
            _ => {
                let octet = self.random.octet() | 16;
                let identifier = self.random.pick(&[octet, 0x10, 0x6F, 0x70, 0x7F, 0x80]);
                let length = self.random.pick(&[0, 1, 255]);
                self.element(identifier, length)
            }
        }
    }

    fn known(&mut self) -> Vec<u8> {
        match self.random.below(4) {
            0 => {
                let extra = if self.spoil(20) { self.random.below(6) } else { 0 };
                let short = if self.spoil(10) { 1 + self.random.below(11) } else { 0 };
                let mut octets = self.element(0x77, 11 - short + extra);
                if octets.len() > 3 {
                    octets[3] = if self.spoil(15) { self.random.octet() } else { 0xF2 };
                }
                if octets.len() > 6 {
                    let index = self.random.below(8);
                    octets[4..7].copy_from_slice(&network(index));
                }
                octets
            }
            1 => {
                let triplets = self.random.below(17);
                let extra = if self.spoil(25) { self.random.below(3) } else { 0 };
                let mut octets = vec![0x4A, (3 * triplets + extra).min(48) as u8];
                for index in 0..16 {
                    octets.extend(network(index));
                }
                octets.truncate(2 + octets[1] as usize);
                octets
            }
            2 => self.timed(0x16, &TIMERS),
            _ => self.timed(0x5E, &PERIODS),
        }
    }

    /// A timer's element, its octet often one of the telling ones; an empty one may come first.
    fn timed(&mut self, identifier: u8, telling: &[u8]) -> Vec<u8> {
        let length = if self.spoil(20) { self.random.below(4) } else { 1 };
        let mut octets = self.element(identifier, length);
        if length > 0 && self.random.odds(50) {
            octets[2] = self.random.pick(telling);
        }
        let empty: &[u8] = if self.spoil(10) { &[identifier, 0] } else { &[] };
        [empty, &octets].concat()
    }

    /// T3346, which a reject may have; any log has some that are empty.
    fn wait(&mut self) -> Vec<u8> {
        if self.random.odds(6) {
            return vec![0x5F, 0];
        }
        self.timed(0x5F, &TIMERS)
    }

    /// Elements behind an accept's result or a reject's cause.
    fn elements(&mut self, octets: &mut Vec<u8>) {
        let accept = octets[2] == 0x42;
        let known = if accept || octets[3] == CONGESTION { 75 } else { 15 };
        let count = self.random.below(if self.wild { 6 } else { 4 });
        for _ in 0..count {
            let element = match self.random.odds(known) {
                true if accept => self.known(),
                true => self.wait(),
                false => self.unknown(),
            };
            octets.extend(element);
        }
    }

    /// Elements up to so many octets in all, often exactly so many.
    fn fill(&mut self, octets: &mut Vec<u8>, room: usize) {
        let target = if self.random.odds(30) { room } else { self.random.below(room) };
        while octets.len() + 3 <= target {
            let room = target - octets.len() - 3;
            let length = if self.random.odds(50) { room } else { self.random.below(room + 1) };
            if self.random.odds(20) {
                octets.extend(vec![0x9F; length + 1]);
            } else {
                let identifier = self.random.pick(&LONG);
                octets.extend(self.element(identifier, length));
            }
        }
        if self.random.odds(30) && octets.len() < room {
            octets.push(self.random.octet());
        }
    }

    /// An element that must be understood, or one past the end, or one that is both.
    fn refused(&mut self) -> Vec<u8> {
        let strange = self.random.below(16) as u8;
        let length = self.random.below(4);
        let mut octets = self.element(strange, length);
        if self.random.odds(50) {
            let identifier = self.random.pick(&[SHORT[length], LONG[length], strange]);
            octets = self.element(identifier, 1 + length);
            let kept = 1 + self.random.below(octets.len() - 1);
            octets.truncate(kept);
        }
        octets
    }

    /// One of the faults that R-1 numbers, at any of its offsets; `fixed` octets come before
    /// the elements.
    fn fault(&mut self, fixed: usize, octets: &mut Vec<u8>) {
        let other = 1 + self.random.below(255) as u8;
        match self.random.below(8) {
            0 if octets[2] == 0x42 => octets[3] = 0,
            0 | 1 => octets.truncate(self.random.below(fixed)),
            2 => octets[0] ^= other,
            3 => octets[1] ^= other,
            4 => octets[2] = self.random.pick(&TYPES),
            5 if octets.len() > fixed => {
                let kept = fixed + self.random.below(octets.len() - fixed);
                octets.truncate(kept);
            }
            _ => {
                octets.extend(self.refused());
                self.elements(octets);
            }
        }
    }

    fn damage(&mut self, octets: &mut Vec<u8>) {
        match self.random.below(6) {
            0 | 1 => {
                let length = self.random.below(octets.len() + 1);
                octets.truncate(length);
            }
            2 => {
                let place = self.random.below(octets.len().min(8));
                octets[place] = self.random.octet();
            }
            3 => {
                let place = self.random.below(octets.len());
                octets[place] ^= 1 << self.random.below(8);
            }
            4 => octets[2] = self.random.pick(&[0x41, 0x43, 0x45, 0x00, 0x42, 0x44]),
            _ => {
                let count = 1 + self.random.below(3);
                octets.extend(self.random.octets(count));
            }
        }
    }

    fn accept(&mut self) -> Vec<u8> {
        let length = if self.spoil(10) { self.random.pick(&[0, 2, 5, 200]) } else { 1 };
        let mut octets = vec![0x7E, 0, 0x42, length];
        let present = if self.spoil(5) { self.random.below(5) } else { length as usize };
        octets.extend(self.random.octets(present));
        octets
    }

    /// A registered access waits for the answer to an update.
    fn updating(&self, a: usize) -> bool {
        let access = &self.record.access[a];
        access.state == 4 && access.regtype != 1
    }

    /// How many messages of a hundred are accepts.
    fn accepts(&self, a: usize) -> usize {
        match self.phase {
            Phase::Register => 80,
            Phase::Mixed => 25,
            Phase::Manual => 40,
            Phase::Imports => 30,
            Phase::Places => 8,
            Phase::Areas => 1,
            Phase::Moving if self.updating(a) => 55,
            Phase::Lost if self.updating(a) => 8,
            Phase::Busy if self.updating(a) => 25,
            Phase::Moving => 70,
            Phase::Lost => 85,
            Phase::Busy => 55,
            _ => 4,
        }
    }

    /// How many messages of a hundred with these fixed octets are protected.
    fn protects(&self, octets: &[u8]) -> usize {
        match octets[2..] {
            [0x42, ..] => 95,
            _ if self.phase == Phase::Areas => 60,
            _ if self.phase == Phase::Places => 8,
            [_, CONGESTION] => 50,
            _ => 20,
        }
    }

    fn message(&mut self, a: usize) -> Vec<u8> {
        let accepts = self.accepts(a);
        let accept = self.random.odds(accepts);
        let mut octets = if accept { self.accept() } else { vec![0x7E, 0, 0x44, self.cause(a)] };
        let mut body = self.heard(a, self.protects(&octets));
        let fixed = octets.len();
        if self.random.odds(longer(&octets)) {
            self.elements(&mut octets);
        }
        if self.wild && self.random.below(400) == 0 {
            self.fill(&mut octets, 65535 - body.len());
        }
        if self.spoil(8) {
            self.damage(&mut octets);
        } else if self.random.odds(if self.wild { 8 } else { 4 }) {
            self.fault(fixed, &mut octets);
        }
        body.extend(octets);
        body
    }

    fn timer(&mut self, number: u8, a: usize) -> Vec<u8> {
        let number = if self.spoil(3) { self.random.pick(&[0, 7, 8, 255]) } else { number };
        let a = if self.spoil(3) { 1 - a } else { a };
        vec![4, 0, number, self.access(a)]
    }

    fn key(&mut self, a: usize) -> Vec<u8> {
        let set = if self.spoil(10) {
            self.random.pick(&[7, 8, 255])
        } else {
            self.random.below(7) as u8
        };
        vec![6, 0, self.access(a), set]
    }

    /// What an access in state 4 meets.
    fn initiated(&mut self, a: usize) -> Vec<u8> {
        let outs = match self.phase {
            Phase::Attempts => 60,
            Phase::Areas => 3,
            Phase::Lost if self.updating(a) => 70,
            _ => 12,
        };
        if self.random.odds(outs) {
            self.timer(1, a)
        } else if self.random.odds(12) {
            self.key(a)
        } else {
            self.message(a)
        }
    }

    /// T3511 or T3502 out in most cases if one runs, or T3346, which is more often not waited for.
    fn waited(&mut self, a: usize) -> Option<Vec<u8>> {
        let access = self.record.access[a];
        if access.t3511 && self.random.odds(60) {
            Some(self.timer(2, a))
        } else if access.t3502 && self.random.odds(60) {
            Some(self.timer(3, a))
        } else if access.t3346 && self.random.odds(40) {
            Some(self.timer(6, a))
        } else {
            None
        }
    }

    fn idle(&mut self, a: usize) -> Vec<u8> {
        self.waited(a).unwrap_or_else(|| self.start(a))
    }

    /// What an access in state 5 meets.
    fn registered(&mut self, a: usize) -> Vec<u8> {
        if a == 0 && self.record.t3512 && self.random.odds(20) {
            return self.timer(5, 0);
        }
        self.waited(a).unwrap_or_else(|| self.update(a))
    }

    /// An event picked without regard to the state.
    fn stray(&mut self) -> Vec<u8> {
        let a = self.random.below(2);
        match self.random.below(8) {
            0 => self.start(a),
            1 | 2 => self.message(a),
            3 => {
                let number = 1 + self.random.below(6) as u8;
                let device = matches!(number, 4 | 5) && self.random.odds(80);
                self.timer(number, if device { 0 } else { a })
            }
            4 => self.key(a),
            5 => self.update(a),
            6 => self.import(),
            _ => self.idle(a),
        }
    }

    fn turn(&mut self) {
        self.phase = self.random.pick(&PHASES);
        let most = if matches!(self.phase, Phase::Areas | Phase::Places) { 500 } else { 180 };
        self.left = 20 + self.random.below(most);
    }

    fn event(&mut self) -> Vec<u8> {
        if self.left == 0 {
            self.turn();
            return if self.random.odds(30) { self.card() } else { vec![5, 0] };
        }
        self.left -= 1;
        if !self.record.card && self.random.odds(80) {
            return if self.random.odds(20) { self.import() } else { self.card() };
        }
        let lifts = match self.phase {
            Phase::Areas | Phase::Networks => 5,
            Phase::Imports => 150,
            Phase::Places => 60,
            _ => 40,
        };
        if self.record.t3247 && self.random.below(1000) < lifts {
            return self.timer(4, 0);
        }
        if self.phase == Phase::Imports && self.random.odds(25) {
            return self.carded();
        }
        if self.phase == Phase::Places && self.random.odds(4) {
            return self.import();
        }
        if self.random.odds(3) {
            return self.stray();
        }
        if self.random.below(800) == 0 {
            return self.card();
        }
        self.steered()
    }

    /// An import in most cases; else a card, with which all bans go, or a power cycle, which leaves
    /// the card's.
    fn carded(&mut self) -> Vec<u8> {
        match self.random.below(10) {
            0 => self.card(),
            1 => vec![5, 0],
            _ => self.import(),
        }
    }

    fn steered(&mut self) -> Vec<u8> {
        let mut a = self.random.odds(match self.phase {
            Phase::Areas => 10,
            Phase::Imports => 20,
            _ => 42,
        }) as usize;
        let stuck = |state: u8| state == 5 || state == 0;
        let states = [self.record.access[0].state, self.record.access[1].state];
        let moves = match self.phase {
            Phase::Moving | Phase::Lost | Phase::Busy => 95,
            _ => 40,
        };
        if states[a] == 5 && self.random.odds(moves) {
            return self.registered(a);
        }
        if stuck(states[0]) && stuck(states[1]) {
            return if self.random.odds(50) { vec![5, 0] } else { self.stray() };
        }
        if stuck(states[a]) {
            if self.random.odds(if self.phase == Phase::Places { 40 } else { 6 }) {
                return vec![5, 0];
            }
            a = 1 - a;
        }
        if states[a] == 4 {
            self.initiated(a)
        } else {
            self.idle(a)
        }
    }

    /// Wrong kinds and body lengths, and records of random octets.
    fn spoiled(&mut self, mut body: Vec<u8>) -> Vec<u8> {
        match self.random.below(6) {
            0 => {
                let kind = self.random.pick(&[0, 1, 3, 7, 8, 9, 10, 11, 12, 255]);
                body[0] = kind;
            }
            1 => body[1] = self.random.pick(&[1, 2, 128, 255]),
            2 => {
                let length = 2 + self.random.below(body.len() - 1);
                body.truncate(length);
            }
            3 => {
                let count = 1 + self.random.below(3);
                let extra = self.random.octets(count);
                body.extend(extra);
            }
            4 => {
                let count = 2 + self.random.below(70);
                body = self.random.octets(count);
            }
            _ => {
                let place = self.random.below(body.len());
                body[place] = self.random.octet();
            }
        }
        body
    }

    fn next(&mut self) -> Vec<u8> {
        let mut body = self.event();
        if self.spoil(4) {
            body = self.spoiled(body);
        }
        body.truncate(65535);
        let oldest = [&self.record.roaming, &self.record.regional].map(first);
        log::apply(&mut self.record, &body);
        let now = [&self.record.roaming, &self.record.regional].map(first);
        for list in 0..2 {
            if oldest[list] != now[list] && now[list].is_some() {
                self.dropped = oldest[list];
            }
        }
        body
    }

    /// What a wild log may end in: a lone octet, a length below 2, a cut record.
    fn tail(&mut self) -> Vec<u8> {
        match self.random.below(8) {
            0 => vec![self.random.octet()],
            1 => vec![0, 0],
            2 => vec![1, 0],
            3 => vec![self.random.below(2) as u8, 0, 5, 0, 2, 0, 5, 0],
            4 => vec![2, 0, 5],
            5 => {
                let body = self.message(0);
                let mut octets = (body.len() as u16).to_le_bytes().to_vec();
                octets.extend(body);
                let length = 2 + self.random.below(octets.len() - 2);
                octets.truncate(length);
                octets
            }
            6 => {
                let count = self.random.below(65535);
                let mut octets = vec![255, 255];
                octets.extend(self.random.octets(count));
                octets
            }
            _ => vec![],
        }
    }
}

fn generate(seed: u64, events: u64, wild: bool) -> io::Result<()> {
    let mut generator = Generator::new(seed, wild);
    let mut out = io::BufWriter::with_capacity(65536, io::stdout().lock());
    for _ in 0..events {
        let body = generator.next();
        out.write_all(&(body.len() as u16).to_le_bytes())?;
        out.write_all(&body)?;
    }
    if wild {
        out.write_all(&generator.tail())?;
    }
    out.flush()
}

/// Pieces of one octet to a few thousand, each its own write.
fn pieces(seed: u64) -> io::Result<()> {
    let mut random = Random(seed);
    let mut octets = Vec::new();
    io::stdin().lock().read_to_end(&mut octets)?;
    let mut rest = &octets[..];
    let mut out = io::stdout().lock();
    while !rest.is_empty() {
        let most = random.pick(&[1, 3, 17, 300, 5000, 70000]);
        let length = (1 + random.below(most)).min(rest.len());
        out.write_all(&rest[..length])?;
        out.flush()?;
        rest = &rest[length..];
    }
    Ok(())
}

fn main() {
    let words: Vec<String> = std::env::args().skip(1).collect();
    let words: Vec<&str> = words.iter().map(String::as_str).collect();
    let number = |word: &str| word.parse::<u64>().expect("a number");
    let result = match words[..] {
        ["pieces", seed] => pieces(number(seed)),
        [seed, events] | [seed, events, "realistic"] => {
            generate(number(seed), number(events), false)
        }
        [seed, events, "wild"] => generate(number(seed), number(events), true),
        _ => Err(io::Error::other("generate SEED EVENTS [realistic|wild] | generate pieces SEED")),
    };
    if let Err(error) = result {
        eprintln!("generate: {error}");
        std::process::exit(1);
    }
}
