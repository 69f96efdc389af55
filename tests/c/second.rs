// The second program of docs/src on records as the C side sends them. It takes valid records only.
use crate::record::{Access, Areas, Change, Entry, Limits, List, Listed, Order, Record, Reply, INITIAL, RANGE, T3247, T3346, T3502, T3510, T3511, T3512};
use crate::deadlines::{self, Slot, Table};
use crate::identity::S1;
use crate::image::{Fields, Saved};
use crate::valid::valid;
use crate::{card, cells, image, log, request};

// The structs of include/tjernfaug.h without their gaps.
#[repr(C, packed)]
#[derive(Clone, Copy)]
pub struct CDevice {
    pub home: u32,
    pub t3512length: u32,
    pub card: u8,
    pub suci: u8,
    pub limits: [u8; 3],
    pub t3247: u8,
    pub t3512: u8,
    pub due: u8,
    pub capability: u8,
    pub security: u8,
    pub roaming: u8,
    pub regional: u8,
    pub edition: u8,
}

#[repr(C, packed)]
#[derive(Clone, Copy)]
pub struct CAccess {
    pub net: u32,
    pub code: u32,
    pub lastnet: u32,
    pub lastcode: u32,
    pub t3502length: u16,
    pub uplink: u16,
    pub sessions: u16,
    pub state: u8,
    pub status: u8,
    pub attempts: u8,
    pub cardcounter: u8,
    pub t3510: u8,
    pub t3511: u8,
    pub t3502: u8,
    pub guti: u8,
    pub visited: u8,
    pub ksi: u8,
    pub equivalents: u8,
    pub entries: u8,
    pub regtype: u8,
    pub t3346: u8,
}

#[repr(C, packed)]
#[derive(Clone, Copy)]
pub struct CEntries {
    pub nets: [u32; 16],
    pub bans: [u8; 16],
    pub n1s: [u8; 16],
    pub forbidden: [u8; 16],
    pub barred: [u8; 16],
    pub ranks: [u8; 16],
}

#[repr(C, packed)]
#[derive(Clone, Copy)]
pub struct CRecord {
    pub dev: CDevice,
    pub access: [CAccess; 2],
    pub entries: [CEntries; 2],
    pub roaming: [u64; 40],
    pub regional: [u64; 40],
    pub guti: [[u8; 10]; 2],
    pub equivalents: [[u32; 15]; 2],
    pub suci: [u8; 64],
    pub capability: [u8; 13],
    pub security: [u8; 8],
}

#[repr(C, packed)]
#[derive(Clone, Copy)]
pub struct CNotice {
    pub offset: u64,
    pub clocks: [[[u32; 2]; 4]; 2],
    pub t3247: [u32; 2],
    pub t3512: [u32; 2],
    pub requests: [u32; 3],
    pub changed: u32,
}

/// The facts in the header's order: registered, n26, context, valid, native.
#[repr(C, packed)]
#[derive(Clone, Copy)]
pub struct CS1 {
    pub facts: [u8; 5],
    pub guti: [u8; 10],
}

/// A table of deadlines, column by column.
#[repr(C, packed)]
#[derive(Clone, Copy)]
pub struct CTable {
    pub rests: [u64; 10],
    pub ends: [u32; 10],
    pub held: [u8; 10],
}

/// Numbers and arrays of numbers with no gap between them, so that they are octets and any octets are they.
pub unsafe trait Plain: Copy {
    fn zero() -> Self {
        unsafe { std::mem::zeroed() }
    }

    fn octets(&self) -> &[u8] {
        unsafe { std::slice::from_raw_parts((self as *const Self).cast(), size_of::<Self>()) }
    }

    fn octets_mut(&mut self) -> &mut [u8] {
        unsafe { std::slice::from_raw_parts_mut((self as *mut Self).cast(), size_of::<Self>()) }
    }
}

unsafe impl Plain for CRecord {}
unsafe impl Plain for CNotice {}
unsafe impl Plain for CS1 {}
unsafe impl Plain for CTable {}

pub fn triple(n: u32) -> [u8; 3] {
    let [_, a, b, c] = n.to_be_bytes();
    [a, b, c]
}

fn number(octets: &[u8]) -> u32 {
    octets.iter().fold(0, |n, &octet| n << 8 | octet as u32)
}

fn area(net: u32, code: u32) -> [u8; 6] {
    let (n, c) = (triple(net), triple(code));
    [n[0], n[1], n[2], c[0], c[1], c[2]]
}

fn areas(items: &[u64]) -> Areas {
    let mut list = Areas::new();
    for item in items {
        list.push(Listed { area: area((item >> 25) as u32, (item >> 1) as u32 & 0xFFFFFF), protected: item & 1 == 1 });
    }
    list
}

fn items(areas: &Areas) -> [u64; 40] {
    let mut items = [0; 40];
    for (item, held) in items.iter_mut().zip(areas.iter()) {
        let (net, code) = (number(&held.area[..3]) as u64, number(&held.area[3..]) as u64);
        *item = (net << 24 | code) << 1 | held.protected as u64;
    }
    items
}

fn padded<const N: usize>(octets: &[u8]) -> [u8; N] {
    let mut all = [0; N];
    all[..octets.len()].copy_from_slice(octets);
    all
}

fn access_in(r: &CRecord, i: usize) -> Access {
    let (a, e) = (r.access[i], r.entries[i]);
    let mut entries = List::new();
    for j in 0..a.entries as usize {
        entries.push(Entry { network: triple(e.nets[j]).into(), ban: e.bans[j], n1: e.n1s[j], forbidden: e.forbidden[j] == 1, n1_barred: e.barred[j] == 1 });
    }
    let mut order: Vec<u8> = (0..a.entries).collect();
    order.sort_by_key(|&j| e.ranks[j as usize]);
    let mut equivalents = List::new();
    for j in 0..a.equivalents as usize {
        equivalents.push(triple(r.equivalents[i][j]));
    }
    Access {
        state: a.state,
        status: a.status,
        attempts: a.attempts,
        t3510: a.t3510 == 1,
        t3511: a.t3511 == 1,
        t3502: a.t3502 == 1,
        t3346: a.t3346 == 1,
        t3502_length: a.t3502length,
        pending: area(a.net, a.code),
        regtype: a.regtype,
        uplink: a.uplink.to_le_bytes(),
        sessions: a.sessions.to_le_bytes(),
        guti: (a.guti == 1).then_some(r.guti[i]),
        last: (a.visited == 1).then_some(area(a.lastnet, a.lastcode)),
        ksi: a.ksi,
        equivalents,
        cards: a.cardcounter,
        entries,
        order: Order::of(&order),
    }
}

fn record_in(r: &CRecord) -> Record {
    let (d, roaming, regional) = (r.dev, r.roaming, r.regional);
    let suci = if d.card == 1 { &r.suci[..d.suci as usize] } else { &[] };
    Record {
        card: d.card == 1,
        home: triple(d.home),
        suci: List::of(suci),
        limits: Limits { card: d.limits[0], ban: d.limits[1], n1: d.limits[2] },
        capability: List::of(&r.capability[..d.capability as usize]),
        security: List::of(&r.security[..d.security as usize]),
        t3247: d.t3247 == 1,
        t3512: d.t3512 == 1,
        t3512_length: d.t3512length,
        due: d.due == 1,
        roaming: areas(&roaming[..d.roaming as usize]),
        regional: areas(&regional[..d.regional as usize]),
        edition: d.edition,
        access: [access_in(r, 0), access_in(r, 1)],
    }
}

fn access_out(a: &Access) -> CAccess {
    let last = a.last.unwrap_or_default();
    CAccess {
        state: a.state,
        status: a.status,
        attempts: a.attempts,
        cardcounter: a.cards,
        t3510: a.t3510 as u8,
        t3511: a.t3511 as u8,
        t3502: a.t3502 as u8,
        t3346: a.t3346 as u8,
        t3502length: a.t3502_length,
        net: number(&a.pending[..3]),
        code: number(&a.pending[3..]),
        regtype: a.regtype,
        uplink: u16::from_le_bytes(a.uplink),
        sessions: u16::from_le_bytes(a.sessions),
        guti: a.guti.is_some() as u8,
        visited: a.last.is_some() as u8,
        lastnet: number(&last[..3]),
        lastcode: number(&last[3..]),
        ksi: a.ksi,
        equivalents: a.equivalents.len() as u8,
        entries: a.entries.len() as u8,
    }
}

fn entries_out(a: &Access) -> CEntries {
    let mut e = CEntries { nets: [0; 16], bans: [0; 16], n1s: [0; 16], forbidden: [0; 16], barred: [0; 16], ranks: a.ranks() };
    for (i, entry) in a.entries.iter().enumerate() {
        e.nets[i] = number(&entry.network.octets());
        e.bans[i] = entry.ban;
        e.n1s[i] = entry.n1;
        e.forbidden[i] = entry.forbidden as u8;
        e.barred[i] = entry.n1_barred as u8;
    }
    e
}

fn equivalents_out(a: &Access) -> [u32; 15] {
    let mut all = [0; 15];
    for (to, net) in all.iter_mut().zip(a.equivalents.iter()) {
        *to = number(net);
    }
    all
}

fn record_out(r: &Record) -> CRecord {
    let [a, b] = &r.access;
    CRecord {
        dev: CDevice {
            card: r.card as u8,
            home: number(&r.home),
            suci: r.suci.len() as u8,
            limits: [r.limits.card, r.limits.ban, r.limits.n1],
            t3247: r.t3247 as u8,
            t3512: r.t3512 as u8,
            t3512length: r.t3512_length,
            due: r.due as u8,
            capability: r.capability.len() as u8,
            security: r.security.len() as u8,
            roaming: r.roaming.len() as u8,
            regional: r.regional.len() as u8,
            edition: r.edition,
        },
        access: [access_out(a), access_out(b)],
        entries: [entries_out(a), entries_out(b)],
        roaming: items(&r.roaming),
        regional: items(&r.regional),
        guti: [a.guti.unwrap_or_default(), b.guti.unwrap_or_default()],
        equivalents: [equivalents_out(a), equivalents_out(b)],
        suci: padded(&r.suci),
        capability: padded(&r.capability),
        security: padded(&r.security),
    }
}

fn told(change: Change) -> [u32; 2] {
    match change {
        Change::Left => [0, 0],
        Change::Stopped => [1, 0],
        Change::Started(seconds) => [2, seconds],
    }
}

fn notice_out(p: &Reply, changed: bool) -> CNotice {
    let clocks = |a: usize| [T3510, T3511, T3502, T3346].map(|timer| told(p.timers[timer + a]));
    let request = |asked: Option<u8>| asked.map_or(0, |access| 1 + access as u32);
    CNotice {
        offset: p.offset as u64,
        clocks: [clocks(0), clocks(1)],
        t3247: told(p.timers[T3247]),
        t3512: told(p.timers[T3512]),
        requests: [p.restart, p.leave, p.update].map(request),
        changed: changed as u32,
    }
}

/// From one of C's structs to that of an image with the same names, and back.
macro_rules! by_name {
    ($there:ident $back:ident $c:ident $saved:ident { $($field:ident)* }) => {
        fn $there(from: $c) -> image::$saved {
            image::$saved { $($field: from.$field),* }
        }

        fn $back(from: image::$saved) -> $c {
            $c { $($field: from.$field),* }
        }
    };
}

by_name!(access_saved access_loaded CAccess Access {
    net code lastnet lastcode t3502length uplink sessions state status attempts cardcounter t3510 t3511 t3502 guti visited ksi equivalents entries regtype t3346
});
by_name!(entries_saved entries_loaded CEntries Entries { nets bans n1s forbidden barred ranks });
by_name!(table_saved table_loaded CTable Columns { rests ends held });

fn device_saved(d: CDevice) -> image::Device {
    let CDevice { home, t3512length, card, suci, limits: [cardlimit, banlimit, n1limit], t3247, t3512, due, capability, security, roaming, regional, edition } = d;
    image::Device { home, t3512length, card, suci, cardlimit, banlimit, n1limit, t3247, t3512, due, capability, security, roaming, regional, edition }
}

fn device_loaded(d: image::Device) -> CDevice {
    let image::Device { home, t3512length, card, suci, cardlimit, banlimit, n1limit, t3247, t3512, due, capability, security, roaming, regional, edition } = d;
    CDevice { home, t3512length, card, suci, limits: [cardlimit, banlimit, n1limit], t3247, t3512, due, capability, security, roaming, regional, edition }
}

/// All fields, in use or not.
fn fields(r: &CRecord) -> Fields {
    let CRecord { dev, access, entries, roaming, regional, guti, equivalents, suci, capability, security } = *r;
    let (device, access, entries) = (device_saved(dev), access.map(access_saved), entries.map(entries_saved));
    Fields { device, access, entries, roaming, regional, guti, equivalents, suci, capability, security }
}

fn record_of(f: &Fields) -> CRecord {
    let Fields { device, access, entries, roaming, regional, guti, equivalents, suci, capability, security } = *f;
    let (dev, access, entries) = (device_loaded(device), access.map(access_loaded), entries.map(entries_loaded));
    CRecord { dev, access, entries, roaming, regional, guti, equivalents, suci, capability, security }
}

/// Whether a record is another than before, in any field.
pub fn changed(was: &CRecord, now: &CRecord) -> bool {
    image::changed(&fields(was), &fields(now))
}

fn saved(r: &CRecord, t: &CTable, serial: u32) -> Saved {
    Saved { serial, record: fields(r), table: table_saved(*t) }
}

/// The image of any record, valid or not.
pub fn image_of(r: &CRecord, t: &CTable, serial: u32) -> Vec<u8> {
    let mut octets = vec![0; image::LENGTH];
    image::save(&saved(r, t, serial), |_| true, &mut octets);
    octets
}

/// The image into the buffer: the answer.
pub fn save(r: &CRecord, t: &CTable, serial: u32, buffer: &mut [u8]) -> u32 {
    image::save(&saved(r, t, serial), |f| valid(&record_of(f)), buffer) as u32
}

/// The image's record, table and serial, or the answer.
pub fn load(octets: &[u8]) -> Result<(CRecord, CTable, u32), u32> {
    let Saved { serial, record, table } = image::load(octets, |f| valid(&record_of(f))).map_err(u32::from)?;
    Ok((record_of(&record), table_loaded(table), serial))
}

pub fn table_in(t: &CTable) -> Table {
    let (rests, ends) = (t.rests, t.ends);
    Table { slots: std::array::from_fn(|i| Slot { held: t.held[i], ends: ends[i], rests: rests[i] }) }
}

fn table_out(t: &Table) -> CTable {
    CTable { rests: t.slots.map(|slot| slot.rests), ends: t.slots.map(|slot| slot.ends), held: t.slots.map(|slot| slot.held) }
}

/// A new record over any octets: the answer and the record after it.
pub fn opened(was: &CRecord, limits: [u8; 3], capability: &[u8], security: &[u8]) -> (u32, CRecord) {
    let fits = limits.iter().all(|limit| (1..=10).contains(limit)) && (1..=13).contains(&capability.len()) && (2..=8).contains(&security.len());
    if !fits {
        return (RANGE as u32, *was);
    }
    let [card, ban, n1] = limits;
    (0, record_out(&Record::new(Limits { card, ban, n1 }, capability, security)))
}

/// What is not held becomes zero.
pub fn tidy(r: &CRecord) -> CRecord {
    record_out(&record_in(r))
}

/// An event: the answer, the notice, the record after it. What the notice says of a change is by what is held.
pub fn event(r: &CRecord, kind: u32, body: &[u8]) -> (u32, CNotice, CRecord) {
    let mut octets = (kind as u16).to_le_bytes().to_vec();
    octets.extend_from_slice(body);
    let (mut held, before) = (record_in(r), tidy(r));
    let reply = if kind < 65536 { log::apply(&mut held, &octets) } else { Reply::of(RANGE) };
    let after = record_out(&held);
    (reply.answer as u32, notice_out(&reply, changed(&before, &after)), after)
}

/// How much was written, or 256 plus the answer.
fn count(written: Result<usize, u8>) -> u32 {
    written.map_or_else(|answer| 256 + answer as u32, |count| count as u32)
}

/// A request into the buffer, nothing lent: its length.
pub fn write(r: &CRecord, access: u8, buffer: &mut [u8]) -> u32 {
    count(request::write(&record_in(r), access, S1::default(), &[], buffer))
}

/// The same with all that may be lent: the answer and the length, which is 0 with a refusal.
pub fn write_from_s1(r: &CRecord, access: u8, s1: &CS1, attach: &[u8], buffer: &mut [u8]) -> (u32, u64) {
    let [registered, n26, context, valid, native] = s1.facts.map(|fact| fact != 0);
    let lent = S1 { registered, n26, context, valid, native, guti: s1.guti };
    let written = request::write(&record_in(r), access, lent, attach, buffer);
    written.map_or_else(|answer| (answer as u32, 0), |len| (0, len as u64))
}

/// R-7's mapped case: an initial registration, of edition 2 with the first four facts, of edition 3 with all five.
pub fn mapped(r: &CRecord, access: u8, s1: &CS1) -> bool {
    let wanted = match r.dev.edition {
        2 => &s1.facts[..4],
        3 => &s1.facts[..],
        _ => return false,
    };
    r.access[access as usize % 2].regtype == INITIAL && wanted.iter().all(|fact| *fact != 0)
}

/// The permitted ones of the networks heard into the list: how many.
pub fn permitted(r: &CRecord, access: u8, heard: &[u32], list: &mut [u32]) -> u32 {
    count(cells::permitted(&record_in(r), access, heard, list))
}

/// The card's file of forbidden networks: how many.
pub fn forbidden(r: &CRecord, file: &mut [u8]) -> u32 {
    count(card::write(&record_in(r), file))
}

/// What a notice tells of the timers, in the order of a reply; none if a number is above 2.
fn timers_in(n: &CNotice) -> Option<[Change; 10]> {
    let (clocks, mut timers) = (n.clocks, [Change::Left; 10]);
    let each = [T3510, T3511, T3502, T3346].into_iter().enumerate().flat_map(|(i, timer)| [(timer, clocks[0][i]), (timer + 1, clocks[1][i])]);
    for (timer, [told, seconds]) in each.chain([(T3247, n.t3247), (T3512, n.t3512)]) {
        timers[timer] = [Change::Left, Change::Stopped, Change::Started(seconds)].get(told as usize).copied()?;
    }
    Some(timers)
}

/// The deadlines that a notice gives at a time: the answer and the table.
pub fn arm(t: &CTable, now: u32, notice: &CNotice) -> (u32, CTable) {
    let Some(timers) = timers_in(notice) else { return (RANGE as u32, *t) };
    let mut table = table_in(t);
    table.arm(now, &Reply { timers, ..Reply::of(0) });
    (0, table_out(&table))
}

/// The slot of the timer that is due, and the table.
pub fn ask(t: &CTable, now: u32) -> (u32, CTable) {
    let mut table = table_in(t);
    let due = table.ask(now).unwrap_or(deadlines::NONE);
    (due as u32, table_out(&table))
}

/// How long firmware may sleep, and the table as it is.
pub fn wait(t: &CTable, now: u32) -> (u32, CTable) {
    (table_in(t).wait(now), *t)
}

/// A round's numbers for a timer that ran out: its slot, 0, and the notice in numbers of 32 bits. It has always changed the record, since that timer ran before.
fn ran_out(ran: &deadlines::Ran) -> Vec<u8> {
    [&(ran.slot as u64).to_le_bytes()[..], notice_out(&ran.reply, true).octets()].concat()
}

pub fn fits(r: &CRecord, t: &CTable) -> bool {
    table_in(t).fits(&record_in(r))
}

/// A round on a table that fits the record: how many timers ran out, the record, the table, and their numbers.
pub fn round(r: &CRecord, t: &CTable, now: u32) -> (u32, CRecord, CTable, Vec<u8>) {
    let (mut held, mut table) = (record_in(r), table_in(t));
    let ran = deadlines::round(&mut held, &mut table, now);
    (ran.len() as u32, record_out(&held), table_out(&table), ran.iter().flat_map(ran_out).collect())
}

/// Whether octets, read as a request, say what the record says over an access, and in the mapped case what is lent: with a key set it is the container's request that says it.
pub fn reads(r: &CRecord, access: u8, s1: &CS1, attach: &[u8], octets: &[u8]) -> bool {
    let held = record_in(r);
    let a = &held.access[access as usize];
    let Ok(said) = request::read(octets) else { return false };
    let (shown, mapped) = (a.ksi < 7, mapped(r, access, s1));
    let update = shown && a.regtype != INITIAL;
    let [capability, area, uplink, sessions] = [said.capability, said.area, said.uplink, said.sessions].map(|part| part.map(|part| &octets[part]));
    let [additional, status, sent] = [said.additional, said.status, said.attach].map(|part| part.map(|part| &octets[part]));
    let (identity, gutis) = (&octets[said.identity.clone()], gutis(&held));
    let known = if mapped { vec![as_sent(&s1.guti)] } else if gutis.is_empty() { vec![held.suci.to_vec()] } else { gutis.clone() };
    (said.ksi, said.regtype) == (a.ksi, a.regtype)
        && known.iter().any(|one| one == identity)
        && begins(octets, identity, &held.security, &added(additional, status, sent), shown).is_some_and(|start| said.identity.start == start + 6)
        && said.security.start > said.identity.end
        && octets[said.security] == held.security[..]
        && capability == shown.then_some(&held.capability[..])
        && area == a.last.as_ref().filter(|_| shown).map(|last| &last[..])
        && uplink == (update && a.uplink != [0; 2]).then_some(&a.uplink[..])
        && sessions == update.then_some(&a.sessions[..])
        && additional.is_some() == (mapped && !gutis.is_empty())
        && additional.is_none_or(|one| gutis.iter().any(|guti| guti == one))
        && status == mapped.then_some(&[0][..])
        && sent == Some(attach).filter(|attach| mapped && !attach.is_empty())
}

/// A GUTI as sent. One mapped from a 4G-GUTI has its ten octets.
fn as_sent(guti: &[u8; 10]) -> Vec<u8> {
    [&[0xF2], &guti[..]].concat()
}

/// The GUTIs that are held.
fn gutis(held: &Record) -> Vec<Vec<u8>> {
    held.access.iter().filter_map(|a| a.guti).map(|guti| as_sent(&guti)).collect()
}

/// The octets of 77, 2B and 70, in this order, of those that were read.
fn added(additional: Option<&[u8]>, status: Option<&[u8]>, attach: Option<&[u8]>) -> Vec<u8> {
    let long = |identifier: u8, part: &[u8]| [&[identifier], &(part.len() as u16).to_be_bytes()[..], part].concat();
    let short = |part: &[u8]| [&[0x2B, part.len() as u8], part].concat();
    [additional.map(|part| long(0x77, part)), status.map(short), attach.map(|part| long(0x70, part))].into_iter().flatten().flatten().collect()
}

/// Where the request to go by begins: at 0 if the clear part (head, identity, 2E, what R-7 adds) is all; in the container if there is to be one, up to the end, with the same head
/// and the same at its end.
fn begins(octets: &[u8], identity: &[u8], security: &[u8], added: &[u8], nested: bool) -> Option<usize> {
    let head = [&octets[..6], identity].concat();
    let clear = [&head[..], &[0x2E, security.len() as u8], security, added].concat();
    match octets.strip_prefix(&clear[..])? {
        [] if !nested => Some(0),
        [0x71, high, low, inner @ ..] if nested && inner.starts_with(&head) && inner.ends_with(added) => {
            (u16::from_be_bytes([*high, *low]) as usize == inner.len()).then_some(clear.len() + 3)
        }
        _ => None,
    }
}
