// The calls that the fuzz run makes, drawn: on a record that lives on events which are often right, and on records changed from it.
use crate::deadlines::WAIT as LONGEST;
use crate::image::{checksum, LENGTH};
use crate::second::{self, triple, CAccess, CEntries, CNotice, CRecord, CTable, Plain, CS1};
use crate::{ARM, ASK, ATTACH, BAR, CARD, CAUSE, CELLS, EDITION, EVENT, FORBIDDEN, FROM_S1, IMPORT, LAP, LOAD, NEW, REQUEST, ROUND, SAVE, UNUSED, WAIT, WORDS};

const BODY: u32 = 96;
/// Above the longest request.
const BUFFER: u32 = 208;
/// The first differs from each of the next three in one octet alone.
const NETS: [[u8; 3]; 6] = [[0x00, 0xF1, 0x10], [0x10, 0xF1, 0x10], [0x00, 0x11, 0x10], [0x00, 0xF1, 0x20], [0x12, 0x34, 0x56], [0x99, 0x99, 0x99]];
const CAUSES: [u8; 16] = [3, 6, 7, 11, 12, 13, 15, 22, 27, 72, 73, 95, 96, 97, 99, 111];
/// The cause of a network that may ask for time.
const BUSY: u8 = 22;
/// T3512's longest time.
const MOST: u32 = 35_712_000;
/// No entry has it before a reject gives it one.
const NEWCOMER: u32 = 0x00F900;

/// A call and all that is lent to it.
pub struct Ask {
    pub call: u8,
    pub gaps: u8,
    pub small: [u8; 3],
    pub kind: u32,
    pub record: CRecord,
    pub notice: CNotice,
    pub s1: CS1,
    pub length: u64,
    pub serial: u32,
    pub table: CTable,
    pub arrays: [Vec<u8>; 2],
    /// The place over access 0 that the event's network is to take from another.
    pub takes: Option<usize>,
}

pub struct Draw(u64);

impl Draw {
    pub fn new(case: u64) -> Draw {
        Draw(case.wrapping_mul(0x9E3779B97F4A7C15) ^ 0x2545F4914F6CDD1D)
    }

    fn next(&mut self) -> u32 {
        self.0 = self.0.wrapping_mul(6364136223846793005).wrapping_add(1442695040888963407);
        (self.0 >> 32) as u32
    }

    fn wide(&mut self) -> u64 {
        (self.next() as u64) << 32 | self.next() as u64
    }

    fn below(&mut self, end: u32) -> u32 {
        (self.next() >> 1) % end
    }

    fn octet(&mut self, end: u32) -> u8 {
        self.below(end) as u8
    }

    /// Often an end.
    fn upto(&mut self, most: u8) -> u8 {
        [0, most, self.octet(most as u32 + 1), self.octet(most as u32 + 1)][self.below(4) as usize]
    }

    fn scatter(&mut self, octets: &mut [u8]) {
        for part in octets.chunks_mut(4) {
            part.copy_from_slice(&self.next().to_le_bytes()[..part.len()]);
        }
    }

    fn octets(&mut self, len: u32) -> Vec<u8> {
        let mut all = vec![0; len as usize];
        self.scatter(&mut all);
        all
    }

    fn net(&mut self) -> u32 {
        number(NETS[self.below(6) as usize])
    }

    /// A status of no session, of sessions in either octet alone, or of any; session 0 is clear.
    fn sessions(&mut self) -> u16 {
        [0, 0x00FE, 0xFF00, 0xFFFE][self.below(4) as usize] & self.next() as u16
    }

    /// A message's draw of seconds: an end of its range, any in it, or, one in thirty-two, the next to an end outside it.
    fn seconds(&mut self, low: u16, high: u16) -> [u8; 2] {
        let (any, out) = (low + self.below((high - low) as u32 + 1) as u16, [low - 1, high + 1][self.below(2) as usize]);
        let right = [low, high, any][self.below(3) as usize];
        if self.below(32) == 0 { out.to_le_bytes() } else { right.to_le_bytes() }
    }

    fn ask(&mut self, call: u8, record: CRecord) -> Ask {
        let (mut notice, mut s1, mut table) = (CNotice::zero(), CS1::zero(), CTable::zero());
        self.scatter(notice.octets_mut());
        self.scatter(s1.octets_mut());
        self.scatter(table.octets_mut());
        let (length, serial) = (self.wide(), self.next());
        Ask { call, gaps: self.octet(256), small: [0; 3], kind: 0, record, notice, s1, length, serial, table, arrays: [vec![], vec![]], takes: None }
    }

    fn hand(&mut self, record: CRecord, (kind, body): (u32, Vec<u8>)) -> Ask {
        Ask { kind, arrays: [body, vec![]], ..self.ask(EVENT, record) }
    }

    /// A buffer of any length up to one, or one that ends about where a part of the request does.
    fn buffer(&mut self, most: u32, ends: [u32; 4]) -> Vec<u8> {
        let (any, end) = (self.below(most + 1), ends[self.below(4) as usize]);
        let len = [any, end - 1, end, end + 1][self.below(4) as usize];
        self.octets(len)
    }

    fn request(&mut self, record: CRecord, access: u8) -> Ask {
        let buffer = self.buffer(BUFFER, ends(&record, access, None));
        Ask { small: [access, 0, 0], arrays: [buffer, vec![]], ..self.ask(REQUEST, record) }
    }

    fn cause(&mut self, octets: Vec<u8>) -> Ask {
        Ask { arrays: [octets, vec![]], ..self.ask(CAUSE, CRecord::zero()) }
    }
}

fn number([a, b, c]: [u8; 3]) -> u32 {
    u32::from_be_bytes([0, a, b, c])
}

/// Where a request's parts end by R-3: the clear part, 71 with its length, and, drawn twice as often, the whole. In R-7's mapped case so much is added to both parts.
fn ends(r: &CRecord, access: u8, added: Option<u32>) -> [u32; 4] {
    let a = r.access[access as usize % 2];
    let guti = added.is_some() || r.access.iter().any(|a| a.guti == 1);
    let identity = if guti { 11 } else { r.dev.suci as u32 };
    let clear = 6 + identity + 2 + r.dev.security as u32 + added.unwrap_or(0);
    let statuses = if a.regtype == 1 { 0 } else { 4 + 4 * (a.uplink != 0) as u32 };
    let inner = clear + 2 + r.dev.capability as u32 + 7 * a.visited as u32 + statuses;
    if a.ksi == 7 { [clear; 4] } else { [clear, clear + 3, clear + 3 + inner, clear + 3 + inner] }
}

/// The same of a call that lends what comes from 4G: 77, if a GUTI is held, 2B and 70, if there is an attach message, are added in the mapped case.
pub fn ends_from_s1(r: &CRecord, access: u8, s1: &CS1, attach: u32) -> [u32; 4] {
    let guti = r.access.iter().any(|a| a.guti == 1);
    let added = 14 * guti as u32 + 3 + (3 + attach) * (attach > 0) as u32;
    ends(r, access, second::mapped(r, access, s1).then_some(added))
}

fn random(d: &mut Draw) -> CRecord {
    let mut record = CRecord::zero();
    d.scatter(record.octets_mut());
    record
}

/// A new record over another, with limits and lengths in their range.
fn fitting(d: &mut Draw, record: CRecord) -> Ask {
    let small = [0; 3].map(|_| 1 + d.octet(10));
    let arrays = [1 + d.below(13), 2 + d.below(7)].map(|len| d.octets(len));
    Ask { small, arrays, ..d.ask(NEW, record) }
}

/// The same, but one limit in eight, and the lengths of one in four, are about the ends of their range: a third is refused.
fn opening(d: &mut Draw, record: CRecord) -> Ask {
    let mut ask = fitting(d, record);
    ask.small = ask.small.map(|limit| if d.below(8) == 0 { [0, 1, 10, 11, d.octet(256)][d.below(5) as usize] } else { limit });
    if d.below(4) == 0 {
        ask.arrays = [[0, 1, 13, 14][d.below(4) as usize], [0, 1, 2, 8, 9][d.below(5) as usize]].map(|len| d.octets(len));
    }
    ask
}

/// The call that a record's life begins with, over random octets.
pub fn first(d: &mut Draw) -> Vec<Ask> {
    let record = random(d);
    vec![fitting(d, record)]
}

/// A card: as kind 1, or as kind 11 with an edition, mostly one that there is.
fn card(d: &mut Draw) -> (u32, Vec<u8>) {
    let (last, known, any) = (d.octet(256), 1 + d.octet(3), [0, 4, d.octet(256)][d.below(3) as usize]);
    let body = vec![0x00, 0xF1, 0x10, 0x01, 0x00, 0xF1, 0x10, 0xF0, 0xFF, 0x00, 0x00, last];
    let edition = if d.below(4) == 0 { any } else { known };
    if d.below(3) == 0 { (CARD, body) } else { (EDITION, [&[edition], &body[..]].concat()) }
}

/// A card of kind 11 with a SUCI of any length, often at an end of its range or next to it.
fn long_card(d: &mut Draw) -> (u32, Vec<u8>) {
    let (edition, any) = (d.octet(5), 1 + d.below(BODY));
    let len = [8, 9, 64, 65, any][d.below(5) as usize];
    let mut suci = d.octets(len);
    suci[0] = 1;
    (EDITION, [&[edition, 0x00, 0xF1, 0x10][..], &suci].concat())
}

/// An accept: an equivalent network, T3502, often a GUTI and T3512.
fn accept(d: &mut Draw, [n1, n2, n3]: [u8; 3]) -> Vec<u8> {
    let (any, long) = (d.octet(256), d.octet(256));
    let head = [0x7E, 0x00, 0x42, 0x01, 0x01, 0x4A, 0x03, n1, n2, n3, 0x16, 0x01, any];
    let guti = [0x77, 0x00, 0x0B, 0xF2, n1, n2, n3, 1, 2, 3, 4, 5, 6, any];
    let t3512 = match d.below(5) {
        0 => vec![],
        1 => vec![0x5E, 0x00, 0x5E, 0x01, long],
        2 => vec![0x5E, 0x01, long, 0x5E, 0x01, any],
        3 => vec![0x5E, 0x02, long, any],
        _ => vec![0x5E, 0x01, long],
    };
    [&head[..], &guti[..guti.len() * d.below(2) as usize], &t3512].concat()
}

/// A reject, mostly with T3346: of some time, zero, deactivated or with no contents, with an octet more, twice, or behind another element.
fn reject(d: &mut Draw, cause: u8) -> Vec<u8> {
    let (any, other) = (d.octet(256), d.octet(256));
    let t3346 = match d.below(9) {
        0 => vec![],
        1 => vec![0x5F, 0x00],
        2 => vec![0x5F, 0x01, any & 0xE0],
        3 => vec![0x5F, 0x01, any | 0xE0],
        4 => vec![0x5F, 0x00, 0x5F, 0x01, any],
        5 => vec![0x5F, 0x01, any, 0x5F, 0x01, other],
        6 => vec![0x5F, 0x02, any, other],
        7 => vec![0x16, 0x01, other, 0x5F, 0x01, any],
        _ => vec![0x5F, 0x01, any],
    };
    [&[0x7E, 0x00, 0x44, cause][..], &t3346].concat()
}

/// An update, mostly of one of the two types and with session 0 clear.
fn update(d: &mut Draw, access: u8, [n1, n2, n3]: [u8; 3]) -> Vec<u8> {
    let regtype = if d.below(8) == 0 { d.octet(5) } else { 2 + d.octet(2) };
    let [[u1, u2], [s1, s2]] = [0; 2].map(|_| (d.sessions() | (d.below(16) == 0) as u16).to_le_bytes());
    vec![access, regtype, n1, n2, n3, 0x00, 0x00, d.octet(16), u1, u2, s1, s2]
}

/// An element of each format, one in eight of which must be understood, and some hundred octets long where it may be.
fn element(d: &mut Draw) -> Vec<u8> {
    let (short, long) = (d.below(8), d.below(400));
    match d.below(8) {
        0 => vec![0x80 | d.octet(128)],
        1 => [&[d.octet(16), short as u8][..], &d.octets(short)].concat(),
        2 => [&[0x70 | d.octet(16)][..], &(long as u16).to_be_bytes(), &d.octets(long)].concat(),
        _ => [&[0x10 + d.octet(0x60), short as u8][..], &d.octets(short)].concat(),
    }
}

/// An accept or a reject of up to three elements or with any octets in their place; then up to two octets of it bent, mostly at its front, and half of all cut.
fn message(d: &mut Draw) -> Vec<u8> {
    let (any, result) = (d.octet(256), 1 + d.octet(3));
    let head = [vec![0x7E, 0x00, 0x44, any], [&[0x7E, 0x00, 0x42, result][..], &d.octets(result as u32)].concat()];
    let tail = if d.below(4) == 0 { d.octets(any as u32 % 24) } else { (0..d.below(4)).flat_map(|_| element(d)).collect() };
    let mut octets = [&head[d.below(2) as usize][..], &tail].concat();
    for _ in 0..d.below(3) {
        let end = if d.below(4) == 0 { octets.len() } else { 4 };
        let at = d.below(end as u32) as usize;
        octets[at] = [bent(d, octets[at]), 0][(d.below(8) == 0) as usize];
    }
    if d.below(2) == 0 {
        octets.truncate(d.below(octets.len() as u32) as usize);
    }
    octets
}

/// A message as kind 3, or with the second draw as kind 8.
fn heard(d: &mut Draw, access: u8, protected: u8, octets: &[u8]) -> (u32, Vec<u8>) {
    let draws = [d.seconds(1800, 3600), d.seconds(900, 1800)].concat();
    let (kind, len) = [(3, 2), (8, 4)][d.below(2) as usize];
    (kind, [&[access, protected][..], &draws[..len], octets].concat())
}

/// What the network says to a request: an accept, mostly protected, a reject or any message.
fn reply(d: &mut Draw, access: u8, net: [u8; 3]) -> (u32, Vec<u8>) {
    let (sure, mostly, any) = (d.octet(2), (d.below(8) > 0) as u8, CAUSES[d.below(16) as usize]);
    let cause = if d.below(8) == 0 { BUSY } else { any };
    let (protected, octets) = match d.below(7) {
        0 => (sure, message(d)),
        1..=3 => (mostly, accept(d, net)),
        _ => (sure, reject(d, cause)),
    };
    heard(d, access, protected, &octets)
}

/// The card's file of these places: one in eight with an octet bent, one in eight that ends within a place.
fn file(d: &mut Draw, places: &[u32]) -> Vec<u8> {
    let mut octets: Vec<u8> = places.iter().flat_map(|net| triple(*net)).collect();
    let (at, more) = (d.below(octets.len().max(1) as u32) as usize, 1 + d.below(2));
    match (d.below(8), octets.get(at)) {
        (0, Some(&octet)) => octets[at] = bent(d, octet),
        (1, _) => octets.extend(d.octets(more)),
        _ => {}
    }
    octets
}

/// A few networks that events name, and unused places.
fn few(d: &mut Draw) -> Vec<u32> {
    (0..d.below(5)).map(|_| [UNUSED, d.net(), d.net()][d.below(3) as usize]).collect()
}

/// Some or all networks of access 0's entries, and new ones: few, as many as there are free entries, or one more; then doubles and unused places among them.
fn filling(d: &mut Draw, r: &CRecord) -> Vec<u32> {
    let nets = r.entries[0].nets;
    let held = &nets[..r.access[0].entries.min(16) as usize];
    let (free, share) = (16 - held.len(), 1 + d.below(2));
    let new = (0..33).map(|i| 0x00F600 + (i / 10 * 16 + i % 10)).filter(|net| !held.contains(net));
    let count = [d.below(4) as usize, free, free, free + 1][d.below(4) as usize];
    let known = held.iter().copied().filter(|_| d.below(share) == 0);
    let mut places: Vec<u32> = known.chain(new.take(count)).collect();
    for _ in 0..d.below(4) {
        let (from, to) = (d.below(2 * places.len() as u32 + 1) as usize, d.below(places.len() as u32 + 1) as usize);
        places.insert(to, places.get(from).copied().unwrap_or(UNUSED));
    }
    places
}

/// An import into a record of any card or, one in eight, of none.
fn import(d: &mut Draw, mut r: CRecord) -> Ask {
    if d.below(8) == 0 {
        r.dev.card = 0;
        r.access.iter_mut().for_each(|a| (a.state, a.t3510) = (0, 0));
    }
    let places = filling(d, &r);
    let body = file(d, &places);
    d.hand(r, (IMPORT, body))
}

/// An event that is often right: its kind, and the octets that matter from small sets.
fn event(d: &mut Draw) -> (u32, Vec<u8>) {
    let net = NETS[d.below(6) as usize];
    let (access, sure, any) = (d.octet(2), d.octet(2), d.octet(256));
    match d.below(21) {
        0 if d.below(20) == 0 => card(d),
        0 => (5, vec![]),
        1 => (6, vec![access, any & 7]),
        2..=4 => (4, vec![[1, 2, 3, 4, 5, 6, d.octet(8)][d.below(7) as usize], access]),
        5..=11 => reply(d, access, net),
        12..=14 => (7, update(d, access, net)),
        15 => {
            let places = few(d);
            (IMPORT, file(d, &places))
        }
        _ => (2, [&[access, sure][..], &net, &[0x00, 0x00, any & 15]].concat()),
    }
}

/// The octet one up, one down or drawn anew.
fn bent(d: &mut Draw, octet: u8) -> u8 {
    let any = d.octet(256);
    [octet.wrapping_add(1), octet.wrapping_sub(1), any, any][d.below(4) as usize]
}

/// Any octets as a body; or a right one whose kind has a high bit too, which has an octet more or less, or another one in an octet's place.
fn wild(d: &mut Draw) -> (u32, Vec<u8>) {
    if d.below(4) > 0 {
        let (kind, len) = (d.below(13), d.below(BODY + 1));
        return (kind, d.octets(len));
    }
    let (kind, mut body) = event(d);
    let at = d.below(body.len().max(1) as u32) as usize;
    match d.below(4) {
        0 => return (kind | 1 << (8 + d.below(24)), body),
        1 => body.push(d.octet(256)),
        2 => drop(body.pop()),
        _ => {
            if let Some(octet) = body.get_mut(at) {
                *octet = bent(d, *octet);
            }
        }
    }
    (kind, body)
}

/// The record with a card, any state, any timers and its lists up to full, numbers often at their ends: valid where `live` is.
fn filled(d: &mut Draw, live: &CRecord) -> CRecord {
    let mut r = *live;
    let (mut roaming, mut regional) = (r.roaming, r.regional);
    for i in 0..40 {
        let area = (number(NETS[2 + i % 4]) as u64) << 24 | i as u64 / 4;
        (roaming[i], regional[i]) = (area << 1 | d.below(2) as u64, area << 1 | d.below(2) as u64);
    }
    (r.roaming, r.regional, r.dev.roaming, r.dev.regional, r.dev.t3247) = (roaming, regional, d.upto(40), d.upto(40), d.upto(1));
    (r.dev.card, r.dev.suci, r.suci[0]) = (1, 9 + d.upto(55), 1);
    (r.dev.t3512, r.dev.due, r.dev.t3512length) = (d.upto(1), d.upto(1), [0, 3240, MOST, d.below(MOST + 1)][d.below(4) as usize]);
    (r.equivalents, r.dev.edition) = ([0; 2].map(|_| [0; 15].map(|_| d.net())), 1 + d.octet(3));
    for (a, e) in r.access.iter_mut().zip(&mut r.entries) {
        fill(d, r.dev.limits, a, e);
    }
    r
}

fn fill(d: &mut Draw, [cards, bans, n1s]: [u8; 3], a: &mut CAccess, e: &mut CEntries) {
    a.state = [0, 4, 4, 5, 6, d.octet(7)][d.below(6) as usize];
    (a.status, a.attempts, a.cardcounter, a.t3502length) = (1 + d.upto(2), d.upto(5), d.upto(cards), [0, 720, 11160, d.below(11161) as u16][d.below(4) as usize]);
    (a.t3510, a.t3511, a.t3502, a.t3346) = ((a.state == 4) as u8 & d.upto(1), d.upto(1), d.upto(1), (d.below(4) == 0) as u8);
    (a.net, a.code, a.ksi, a.entries) = (d.net(), d.below(16), d.upto(7), d.upto(16));
    (a.guti, a.visited, a.equivalents) = (d.upto(1), d.upto(1), d.upto(15));
    (a.regtype, a.uplink, a.sessions) = (1 + d.upto(2), d.sessions(), d.sessions());
    let (full, most) = (d.below(4) == 0, d.below(7) as usize);
    let known = if full { 0 } else { most };
    e.nets = std::array::from_fn(|i| if i < known { number(NETS[i]) } else { 0x00F500 + (i as u32 / 10 * 16 + i as u32 % 10) });
    for i in 0..16 {
        (e.bans[i], e.n1s[i], e.forbidden[i], e.barred[i]) = (d.upto(bans), d.upto(n1s), d.upto(1), d.upto(1));
    }
    if full {
        a.entries = 16;
        marked(d, e);
    }
    rank(d, a.entries as usize, &mut e.ranks);
}

/// Every entry has one mark or both; or, in half of the tables, all but one.
fn marked(d: &mut Draw, e: &mut CEntries) {
    for i in 0..16 {
        (e.forbidden[i], e.barred[i]) = [(1, 0), (0, 1), (1, 1)][d.below(3) as usize];
    }
    if d.below(2) == 0 {
        let i = d.below(16) as usize;
        (e.forbidden[i], e.barred[i]) = (0, 0);
    }
}

/// The ranks of so many entries in any order, and any octets behind them.
fn rank(d: &mut Draw, count: usize, ranks: &mut [u8; 16]) {
    d.scatter(ranks);
    for i in 0..count {
        let at = d.below(i as u32 + 1) as usize;
        ranks[i] = i as u8;
        ranks.swap(at, i);
    }
}

/// The record with one number of an update, of T3512 or of T3346, or its edition, about the ends of its range, half the time outside it.
fn strained(d: &mut Draw, full: &CRecord) -> CRecord {
    let (mut r, at) = (*full, d.below(2) as usize);
    let a = &mut r.access[at];
    match d.below(8) {
        0 => a.regtype = d.octet(6),
        1 => a.uplink |= d.below(2) as u16,
        2 => a.sessions |= d.below(2) as u16,
        3 => r.dev.t3512 = d.octet(3),
        4 => r.dev.due = d.octet(3),
        5 => a.t3346 = [0, 1, 2, d.octet(256)][d.below(4) as usize],
        6 => r.dev.edition = [0, 1, 3, 4, d.octet(256)][d.below(5) as usize],
        _ => r.dev.t3512length = [MOST - 1, MOST, MOST + 1, d.below(MOST) | 1 << (26 + d.below(6))][d.below(4) as usize],
    }
    r
}

/// The record with one rank changed: to the count of entries or about it, to another one's, to any octet; or, of one in four, behind the entries, if they are not sixteen,
/// where any is right.
fn misranked(d: &mut Draw, full: &CRecord) -> CRecord {
    let (mut r, at) = (*full, d.below(2) as usize);
    let (count, ranks) = (r.access[at].entries as usize, &mut r.entries[at].ranks);
    let (behind, any) = (count + d.below(16 - count.min(15) as u32) as usize, d.octet(256));
    let (i, j) = (d.below(count.max(1) as u32) as usize, d.below(count.max(1) as u32) as usize);
    match d.below(4) {
        0 => ranks[i] = [count as u8, count as u8 + 1, any][d.below(3) as usize],
        1 => ranks[i] = ranks[j],
        2 => ranks[i] = bent(d, ranks[i]),
        _ => ranks[behind.min(15)] = any,
    }
    r
}

/// An import of some entries of a full table of access 0 has been taken, in any order of its file, and its marks are lifted; all others have one. So the first of those
/// entries is to give up its place to the network of this reject.
fn tied(d: &mut Draw, full: &CRecord) -> Ask {
    let mut r = *full;
    let (a, e) = (&mut r.access[0], &mut r.entries[0]);
    (a.state, a.net, a.entries) = (4, NEWCOMER, 16);
    rank(d, 16, &mut e.ranks);
    let (nets, first) = (e.nets, d.below(15) as usize);
    let mut named = vec![first];
    for i in first + 1..16 {
        if i == first + 1 || d.below(3) == 0 {
            named.insert(d.below(named.len() as u32 + 1) as usize, i);
        }
    }
    let file: Vec<u8> = named.iter().flat_map(|&i| triple(nets[i])).collect();
    let (_, _, mut r) = second::event(&r, IMPORT, &file);
    for i in 0..16 {
        (r.entries[0].forbidden[i], r.entries[0].barred[i]) = (!named.contains(&i) as u8, 0);
    }
    let (sure, cause) = (d.octet(2), [11, 73, BAR][d.below(3) as usize]);
    let octets = reject(d, cause);
    let event = heard(d, 0, sure, &octets);
    Ask { takes: Some(first), ..d.hand(r, event) }
}

/// What the request over an access may show, all of it and each part at its longest.
fn stretch(r: &mut CRecord, at: usize) {
    (r.dev.suci, r.dev.capability, r.dev.security) = (64, 13, 8);
    (r.access[0].guti, r.access[1].guti) = (0, 0);
    let a = &mut r.access[at];
    (a.visited, a.regtype, a.uplink) = (1, a.regtype.max(2), a.uplink | 2);
}

/// A record that is often one that writes a request: with a key set and without, of each type, an identity of each kind, with and without a last area, lengths from end to end.
fn writer(d: &mut Draw, live: &CRecord) -> (CRecord, u8) {
    let mut r = *live;
    let at = d.below(2) as usize;
    d.scatter(&mut r.capability);
    d.scatter(&mut r.security);
    d.scatter(&mut r.suci);
    (r.suci[0], r.dev.suci, r.dev.capability, r.dev.security) = (1, 9 + d.octet(56), 1 + d.octet(13), 2 + d.octet(7));
    r.dev.card |= (d.below(8) > 0) as u8;
    let net = r.access[at].net;
    for i in 0..2 {
        r.access[i].guti = d.octet(2);
        for j in 0..3 {
            r.guti[i][j] = net.to_be_bytes()[1 + j] ^ (d.below(3) == 0) as u8;
        }
    }
    let mut equivalents = r.equivalents;
    for equivalent in &mut equivalents[at] {
        *equivalent = net ^ (d.below(2) << 16 | d.below(2) << 8 | d.below(2));
    }
    r.equivalents = equivalents;
    let a = &mut r.access[at];
    (a.state, a.ksi, a.visited, a.equivalents) = (4 * r.dev.card, d.upto(7), d.octet(2), d.octet(16));
    (a.lastnet, a.lastcode) = (d.below(1 << 24), d.below(1 << 24));
    (a.regtype, a.uplink, a.sessions) = (1 + d.octet(3), d.sessions(), d.sessions());
    if d.below(16) == 0 {
        stretch(&mut r, at);
    }
    (r, if d.below(20) == 0 { d.octet(256) } else { at as u8 })
}

fn writing(d: &mut Draw, live: &CRecord) -> Ask {
    let (r, access) = writer(d, live);
    d.request(r, access)
}

/// What a device may bring from 4G: half the time all facts, else mostly all but one. A yes is any number but 0.
fn facts(d: &mut Draw) -> CS1 {
    let mut s1 = CS1::zero();
    d.scatter(&mut s1.guti);
    s1.facts = [0; 5].map(|_| [1, 255, 1 + d.octet(255)][d.below(3) as usize]);
    let (one, some) = (d.below(5) as usize, d.octet(32));
    match d.below(8) {
        0 => (0..5).for_each(|i| s1.facts[i] *= some >> i & 1),
        1..=3 => s1.facts[one] = 0,
        _ => {}
    }
    s1
}

/// A request of a device that may come from 4G: mostly an edition that there is, an initial registration more often than not, and an attach message of no octets, a few, some
/// hundred, or, of one in thirty-two each, as many as there may be and one more. With as many as there may be all that the mapped case has is at its longest.
fn lending(d: &mut Draw, live: &CRecord) -> Ask {
    let ((mut r, access), mut s1) = (writer(d, live), facts(d));
    let at = access as usize % 2;
    let (few, some, way) = (1 + d.below(40), 200 + d.below(400), d.below(32));
    let attach = match way {
        0 => ATTACH,
        1 => ATTACH + 1,
        2..=3 => some,
        4..=9 => 0,
        _ => few,
    };
    r.dev.edition = if d.below(16) == 0 { [0, 4][d.below(2) as usize] } else { [1, 2, 2, 3][d.below(4) as usize] };
    r.access[at].regtype = if d.below(4) == 0 { r.access[at].regtype } else { 1 };
    if d.below(8) == 0 {
        (r.access[at].state, r.access[at].t3510) = (5 * r.dev.card, 0);
    }
    if way == 0 {
        (r.dev.edition, r.dev.capability, r.dev.security, s1.facts) = (2 + d.octet(2), 13, 8, [1; 5]);
        (r.access[at].regtype, r.access[at].guti, r.access[at].visited, r.access[at].ksi) = (1, 1, 1, 7 * d.octet(2));
    }
    let ends = ends_from_s1(&r, access, &s1, attach);
    let arrays = [d.octets(attach), d.buffer(2 * ends[3], ends)];
    Ask { small: [access, 0, 0], s1, arrays, ..d.ask(FROM_S1, r) }
}

/// A network heard: mostly of an entry of either access, in use or not; else heard before, unlike an entry's in one octet, or one of those that events name.
fn cell(d: &mut Draw, r: &CRecord, heard: &[u32]) -> u32 {
    let at = d.below(2) as usize;
    let count = [16, r.access[at].entries.clamp(1, 16)][d.below(2) as usize];
    let net = { r.entries[at].nets }[d.below(count as u32) as usize];
    match d.below(8) {
        0 if !heard.is_empty() => heard[d.below(heard.len() as u32) as usize],
        1 => net ^ (1 + d.below(255)) << (8 * d.below(3)),
        2 => d.net(),
        _ => net,
    }
}

/// Up to 66 cells heard, often few or 64, of which one list in four has any numbers and one in eight a number above 24 bits;
/// a second list that is shorter by one, equal, longer, or of any length; and an access, one in sixteen of any number.
fn cells(d: &mut Draw, record: CRecord) -> Ask {
    let len = [d.below(4), d.below(16), 64 + d.below(4) / 3, d.below(67)][d.below(4) as usize];
    let (strange, wide) = (d.below(4) == 0, d.below(8) == 0);
    let mut heard = vec![];
    for _ in 0..len {
        heard.push(if strange { d.below(1 << 24) } else { cell(d, &record, &heard) });
    }
    if let Some(net) = heard.get_mut(d.below(len.max(1)) as usize).filter(|_| wide) {
        *net |= 1 << (24 + d.below(8));
    }
    let room = [len.saturating_sub(1), len, len + 1 + d.below(6), d.below(71)][d.below(4) as usize];
    let access = if d.below(16) == 0 { d.octet(256) } else { d.octet(2) };
    let arrays = [heard.iter().flat_map(|net| net.to_le_bytes()).collect(), d.octets(4 * room)];
    Ask { small: [access, 0, 0], arrays, ..d.ask(CELLS, record) }
}

/// A file for the list of forbidden networks, in one of four all that are held: empty, shorter by a network, just as long, longer by some, or of any length.
fn forbidden(d: &mut Draw, mut record: CRecord) -> Ask {
    if d.below(4) == 0 {
        record.entries[0].forbidden = [1; 16];
    }
    let held = record.access[0].entries.min(16) as usize;
    let list = 3 * record.entries[0].forbidden[..held].iter().filter(|mark| **mark == 1).count() as u32;
    let (more, any) = (3 * (1 + d.below(4)), d.below(61));
    let len = [0, list.saturating_sub(3), list, list + more, any, any][d.below(6) as usize];
    let file = d.octets(len);
    Ask { arrays: [file, vec![]], ..d.ask(FORBIDDEN, record) }
}

/// A clock's time, often about where it wraps or half way round.
fn time(d: &mut Draw) -> u32 {
    let (near, any) = (d.below(1000), d.next());
    [0, u32::MAX, LAP, LAP + 1, near, near.wrapping_neg(), any, any][d.below(8) as usize]
}

/// A deadline and what rests behind it. Past by nothing, by up to 600 s, by as much as there may be or by any; to come in a moment, as far off as there may be, or at any time.
fn deadline(d: &mut Draw, now: u32) -> (u32, u64) {
    let (near, any, wide) = (d.below(600_001), d.below(LAP + 1), d.wide());
    let late = [0, near, near, LAP, any, u32::MAX, LAP + 1, !any][d.below(8) as usize];
    let rests = [1, near as u64, LAP as u64, LAP as u64 + 1, 33_564_516_353, u64::MAX, wide, wide >> (near % 64)][d.below(8) as usize];
    (now.wrapping_sub(late), if d.below(4) == 0 { rests } else { 0 })
}

/// The flags of the ten timers, in the order of the slots.
pub fn flags(r: &CRecord) -> [u8; 10] {
    let [a, b] = r.access;
    [a.t3510, b.t3510, a.t3511, b.t3511, a.t3502, b.t3502, a.t3346, b.t3346, r.dev.t3512, r.dev.t3247]
}

/// A table that fits the record. Half of all have ties, and of a quarter any numbers stand where no timer is held.
fn table(d: &mut Draw, r: &CRecord, now: u32) -> CTable {
    let (mut rests, mut ends, held) = ([0; 10], [0; 10], flags(r));
    let (tied, strange, shared) = (d.below(2) == 0, d.below(4) == 0, deadline(d, now));
    for i in 0..10 {
        (ends[i], rests[i]) = if tied && d.below(3) > 0 { shared } else { deadline(d, now) };
        if held[i] == 0 && !strange {
            (ends[i], rests[i]) = (0, 0);
        }
    }
    CTable { rests, ends, held }
}

/// Any table: all octets by chance, or of one that fits the record up to three octets of `held` by chance.
fn odd_table(d: &mut Draw, r: &CRecord, now: u32) -> CTable {
    let mut t = table(d, r, now);
    match d.below(8) {
        0 => d.scatter(t.octets_mut()),
        1 => d.scatter(&mut t.held),
        _ => {
            for _ in 0..d.below(4) {
                let at = d.below(10) as usize;
                t.held[at] = [1 - t.held[at].min(1), 2, 1, d.octet(256)][d.below(4) as usize];
            }
        }
    }
    t
}

/// What a notice may tell of a timer, one in twenty-four something that there is not; often for a length about a lap's.
fn telling(d: &mut Draw) -> [u32; 2] {
    let (any, unknown) = (d.next(), [3, 3 + d.below(1 << 30), u32::MAX][d.below(3) as usize]);
    let seconds = [0, 15, LAP / 1000, LAP / 1000 + 1, MOST, u32::MAX, any, any >> 12][d.below(8) as usize];
    [if d.below(24) == 0 { unknown } else { d.below(3) }, seconds]
}

fn arming(d: &mut Draw, r: &CRecord) -> Ask {
    let (kind, mut ask) = (time(d), d.ask(ARM, *r));
    ask.notice.clocks = [0; 2].map(|_| [0; 4].map(|_| telling(d)));
    (ask.notice.t3247, ask.notice.t3512) = (telling(d), telling(d));
    Ask { kind, table: odd_table(d, r, kind), ..ask }
}

fn asking(d: &mut Draw, r: &CRecord) -> Ask {
    let kind = time(d);
    Ask { kind, table: odd_table(d, r, kind), ..d.ask(ASK, *r) }
}

/// A sleep, mostly with all deadlines to come: the first in a moment, about the longest wait or any time before it, the others from then on, as far off as there may be.
fn waiting(d: &mut Draw, r: &CRecord) -> Ask {
    let kind = time(d);
    let (mut table, soon) = (odd_table(d, r, kind), 1 + d.below(LONGEST));
    let first = [1, soon, soon, LONGEST - 1, LONGEST, LONGEST + 1][d.below(6) as usize];
    if d.below(6) > 0 {
        let held = table.held;
        for i in (0..10).filter(|&i| held[i] > 0) {
            let ahead = [1, LONGEST, 1 + d.below(LONGEST), 1 + d.below(LAP + 1), LAP + 1][d.below(5) as usize];
            table.ends[i] = kind.wrapping_add(ahead.max(first));
        }
    }
    Ask { kind, table, ..d.ask(WAIT, *r) }
}

/// All timers run, or all but a few, and T3510 is often at its last attempt, with a T3502 of no time.
fn ripe(d: &mut Draw, full: &CRecord) -> CRecord {
    let mut r = *full;
    let rare = d.below(8) == 0;
    for a in &mut r.access {
        (a.state, a.attempts, a.t3502length) = (4, 3 + d.octet(3), [0, 0, 1, 720][d.below(4) as usize]);
        (a.t3510, a.t3511, a.t3502, a.t3346) = (1, 1, !rare as u8, 1);
    }
    (r.dev.t3512, r.dev.t3247) = (1, 1);
    r
}

/// A table of the ripe record: all are due, many equally far past their deadlines.
fn ripe_table(d: &mut Draw, r: &CRecord, now: u32) -> CTable {
    let late = [0; 10].map(|_| now.wrapping_sub(d.below(4) * 1000));
    CTable { rests: [0; 10], ends: late, held: flags(r) }
}

/// A round with a list that is just long enough or longer; one in eight is shorter, often by one number. A list is whole pairs, of which the last number may not be lent.
fn rounding(d: &mut Draw, record: CRecord, kind: u32, table: CTable) -> Ask {
    let (more, less) = (WORDS + d.below(60), d.below(WORDS));
    let words = if d.below(8) == 0 { [0, WORDS - 1, WORDS - 1, less][d.below(4) as usize] } else { [WORDS, WORDS, WORDS + 1, more][d.below(4) as usize] };
    let list = d.octets(words.div_ceil(2) * 8);
    Ask { kind, small: [(words % 2) as u8, 0, 0], table, arrays: [vec![], list], ..d.ask(ROUND, record) }
}

/// The calls of a round that are about deadlines.
fn clocked(d: &mut Draw, live: &CRecord, full: &CRecord, broken: &CRecord) -> Vec<Ask> {
    let (ripe, now) = (ripe(d, full), time(d));
    let (due, some, odd, bad) = (ripe_table(d, &ripe, now), table(d, full, now), odd_table(d, full, now), table(d, broken, now));
    let (any, young) = (table(d, &ripe, now), table(d, live, now));
    let mut calls = vec![arming(d, full), asking(d, full), asking(d, &ripe), waiting(d, live), waiting(d, full), waiting(d, &ripe)];
    calls.extend([(ripe, due), (ripe, any), (*full, some), (*live, young), (*full, odd), (*broken, bad)].map(|(record, table)| rounding(d, record, now, table)));
    calls
}

/// A save of a record and any table, into a buffer that is just long enough, longer, or, in two of five, shorter.
fn saving(d: &mut Draw, record: CRecord) -> Ask {
    let (more, less) = (LENGTH as u32 + 1 + d.below(64), d.below(LENGTH as u32));
    let len = [LENGTH as u32, LENGTH as u32, more, LENGTH as u32 - 1, [0, less][d.below(2) as usize]][d.below(5) as usize];
    Ask { kind: d.next(), arrays: [d.octets(len), vec![]], ..d.ask(SAVE, record) }
}

/// The octets as an image of this version and length, cut or filled up by any octets, with its checksum where that length has it; there is none below twelve.
fn told(d: &mut Draw, mut octets: Vec<u8>, version: u16, len: u16) -> Vec<u8> {
    octets.truncate(len as usize - 4);
    octets.extend(d.octets((len as usize - 4 - octets.len()) as u32));
    octets[4..8].copy_from_slice(&[version.to_le_bytes(), len.to_le_bytes()].concat());
    sealed(octets)
}

fn sealed(mut octets: Vec<u8>) -> Vec<u8> {
    octets.extend(checksum(&octets).to_le_bytes());
    octets
}

/// An image of eleven octets in which a checksum would hold that lies over the length's high octet, which is 0.
fn overlaid(d: &mut Draw, octets: &[u8]) -> Vec<u8> {
    let (mut short, first) = (octets[..8].to_vec(), d.next() as u16);
    short[6] = 11;
    for more in 0..=u16::MAX {
        short[4..6].copy_from_slice(&first.wrapping_add(more).to_le_bytes());
        if let [0, rest @ ..] = checksum(&short[..7]).to_le_bytes() {
            return [&short[..7], &[0], &rest].concat();
        }
    }
    short
}

/// An image with one octet of its first `end` bent, to another one, and a checksum that holds.
fn mended(d: &mut Draw, mut octets: Vec<u8>, end: u32) -> Vec<u8> {
    octets.truncate(LENGTH - 4);
    let at = d.below(end) as usize;
    octets[at] = bent(d, octets[at]);
    sealed(octets)
}

/// What is left of an image: all of it; cut, often by one octet or to a few; up to three octets of it bent; its mark, its version, its length or any octet another one, with a checksum that holds;
/// octets that were never an image.
fn worn(d: &mut Draw, image: Vec<u8>) -> Vec<u8> {
    let (any, len, version) = (d.below(LENGTH as u32) as usize, 12 + d.below(1500) as u16, d.next() as u16);
    let about = [12, 13, LENGTH as u16 - 1, LENGTH as u16 + 1, 65535, len][d.below(6) as usize];
    let mut octets = image;
    match d.below(16) {
        0 => octets.truncate([LENGTH - 1, any, any % 12, 0][d.below(4) as usize]),
        1 | 2 => {
            for _ in 0..1 + d.below(3) {
                let at = [any, d.below(12) as usize, LENGTH - 1 - d.below(4) as usize][d.below(3) as usize];
                octets[at] = bent(d, octets[at]);
            }
        }
        3 => octets = mended(d, octets, 4),
        4 => octets = told(d, octets, [0, 2, 256, version][version as usize % 4], LENGTH as u16),
        5 => octets = told(d, octets, [0, 2, 256, version][version as usize % 4], about),
        6 => octets = told(d, octets, 1, about),
        7 => octets = overlaid(d, &octets),
        8 => octets = [vec![0; any], vec![0xFF; any], d.octets(any as u32)][any % 3].clone(),
        9 | 10 => octets = mended(d, octets, LENGTH as u32 - 4),
        _ => {}
    }
    octets
}

/// A load of what is left of a record's image, half the time with any octets behind it, over another record.
fn loading(d: &mut Draw, record: &CRecord, over: CRecord) -> Ask {
    let (now, serial) = (time(d), d.next());
    let table = odd_table(d, record, now);
    let image = worn(d, second::image_of(record, &table, serial));
    let behind = d.below(2) * d.below(64);
    let octets = [image, d.octets(behind)].concat();
    Ask { arrays: [octets, vec![]], ..d.ask(LOAD, over) }
}

/// The calls of a round that are about images.
fn stored(d: &mut Draw, live: &CRecord, full: &CRecord, broken: &CRecord, scattered: &CRecord) -> Vec<Ask> {
    let mut calls: Vec<Ask> = [live, full, broken].map(|record| saving(d, *record)).into();
    calls.extend([(live, *full), (full, *live), (full, *scattered), (broken, *full)].map(|(record, over)| loading(d, record, over)));
    calls
}

/// The record with one octet of its first `end` bent.
fn changed(d: &mut Draw, live: &CRecord, end: usize) -> CRecord {
    let (mut r, at) = (*live, d.below(end as u32) as usize);
    r.octets_mut()[at] = bent(d, r.octets()[at]);
    r
}

/// The requests of a round: of records made for them, with nothing lent and with what comes from 4G, and of these others.
fn requests(d: &mut Draw, live: &CRecord, full: &CRecord, others: [CRecord; 3], access: u8) -> Vec<Ask> {
    let mut asks = vec![writing(d, live), lending(d, live), lending(d, full)];
    asks.extend(others.map(|record| d.request(record, access)));
    asks
}

/// The calls of a round. The record lives on what the first one makes of it.
pub fn round(d: &mut Draw, live: &CRecord) -> Vec<Ask> {
    const HOT: usize = std::mem::offset_of!(CRecord, entries);
    const ALL: usize = size_of::<CRecord>();
    let (one, hot, full) = (changed(d, live, ALL), changed(d, live, HOT), filled(d, live));
    let (access, sure, right, again, any, other) = (d.octet(2), d.octet(2), event(d), event(d), wild(d), wild(d));
    let (often, carded, long) = (if live.dev.card == 0 && d.below(4) > 0 { card(d) } else { right }, card(d), long_card(d));
    let (scattered, end) = (random(d), [HOT, ALL][d.below(2) as usize]);
    let (broken, odd, net) = (changed(d, &full, end), strained(d, &full), NETS[d.below(6) as usize]);
    let (misranked, cause) = (misranked(d, &full), [11, 73, 27, 72][d.below(4) as usize]);
    let (moving, octets, busy, bar, ban) = ((7, update(d, access, net)), message(d), reject(d, BUSY), reject(d, BAR), reject(d, cause));
    let (said, asked, barred) = (heard(d, access, 1, &octets), heard(d, access, sure, &busy), heard(d, access, sure, &bar));
    let banned = heard(d, access, sure, &ban);
    let (over, marked) = ([*live, full, scattered][d.below(3) as usize], [*live, full, full, broken][d.below(4) as usize]);
    let mut calls = vec![
        d.hand(*live, often),
        d.hand(*live, any),
        d.hand(scattered, other),
        d.hand(full, carded),
        d.hand(full, long),
        d.hand(full, again.clone()),
        d.hand(broken, again),
        d.hand(full, moving),
        d.hand(full, said),
        d.hand(full, asked),
        d.hand(full, barred),
        d.hand(full, banned.clone()),
        d.hand(misranked, banned),
        tied(d, &full),
        d.cause(octets),
        opening(d, over),
        import(d, full),
    ];
    calls.extend([one, hot, misranked, odd].map(|record| d.hand(record, (5, vec![]))));
    calls.extend([*live, full, broken, misranked].map(|record| cells(d, record)));
    calls.extend([marked, misranked].map(|record| forbidden(d, record)));
    calls.extend(requests(d, live, &full, [one, misranked, odd], access));
    calls.extend(clocked(d, live, &full, &broken));
    calls.extend(stored(d, live, &full, &broken, &scattered));
    calls
}
