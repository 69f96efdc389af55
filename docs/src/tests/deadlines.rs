// Request R-13: deadlines on a clock that wraps.

use super::*;
use crate::deadlines::*;

/// The slots by name, of access 0.
const S3510: usize = 0;
const S3511: usize = 2;
const S3502: usize = 4;
const S3512: usize = 8;
const S3247: usize = 9;
const LAP: u64 = 0x7FFF_FFFF;
/// 31 times 320 hours, in milliseconds.
const LONGEST: u64 = 35_712_000_000;

/// Whether the timer of each slot runs.
const FLAGS: [fn(&mut Record) -> &mut bool; NONE] = [
    |r| &mut r.access[0].t3510,
    |r| &mut r.access[1].t3510,
    |r| &mut r.access[0].t3511,
    |r| &mut r.access[1].t3511,
    |r| &mut r.access[0].t3502,
    |r| &mut r.access[1].t3502,
    |r| &mut r.access[0].t3346,
    |r| &mut r.access[1].t3346,
    |r| &mut r.t3512,
    |r| &mut r.t3247,
];

fn held(ends: u32, rests: u64) -> Slot {
    Slot { held: 1, ends, rests }
}

/// A table with these slots held, each at its deadline.
fn table_of(slots: &[(usize, u32)]) -> Table {
    let mut table = Table::default();
    for &(slot, ends) in slots {
        table.slots[slot] = held(ends, 0);
    }
    table
}

/// A reply that starts the timer at a place of the record's.
fn started(place: usize, seconds: u32) -> Reply {
    let mut reply = Reply::of(0);
    reply.timers[place] = Change::Started(seconds);
    reply
}

fn slots(ran: &[Ran]) -> Vec<usize> {
    ran.iter().map(|one| one.slot).collect()
}

/// A registration of an access on AWAY or HOME that goes out by its fifth attempt.
fn fifth(record: &mut Record, a: usize) -> Reply {
    record.access[a].attempts = 4;
    record.start(a as u8, 0, area(if a == 0 { AWAY } else { HOME }))
}

/// Each timer of a reply in its slot, and no other; T3512 stands before T3247.
#[test]
fn each_timer_has_its_slot() {
    let places = [0, 1, 2, 3, 4, 5, 6, 7, T3512, T3247];
    for (slot, place) in places.into_iter().enumerate() {
        let mut table = Table::default();
        table.arm(7, &started(place, 2));
        assert_eq!(table, table_of(&[(slot, 2007)]));
        assert_eq!((table.ask(2006), table.ask(2007)), (None, Some(slot)));
        table.arm(9, &Reply::of(0));
        assert_eq!(table, table_of(&[(slot, 2007)]));
        let mut stopped = Reply::of(0);
        stopped.timers[place] = Change::Stopped;
        table.arm(9, &stopped);
        assert_eq!(table, Table::default());
    }
}

/// A timer that is started again has its new deadline alone.
#[test]
fn a_start_puts_the_deadline_anew() {
    let mut table = Table::default();
    table.arm(0, &started(T3512, 35_712_000));
    table.arm(5, &started(T3512, 1));
    assert_eq!(table, table_of(&[(S3512, 1005)]));
}

/// The furthest past its deadline, of equals the first in the order of ties.
#[test]
fn ties() {
    let mut table = table_of(&[(S3247, 100), (S3512, 100), (S3511, 101), (S3510, 102)]);
    assert_eq!(table.ask(99), None);
    assert_eq!(table.ask(100), Some(S3512));
    assert_eq!(table.ask(102), Some(S3512));
    table.slots[S3512] = Slot::default();
    assert_eq!(table.ask(102), Some(S3247));
    for first in 0..NONE {
        let mut table = Table::default();
        for slot in first..NONE {
            table.slots[slot] = held(50, 0);
        }
        assert_eq!(table.ask(50), Some(first));
    }
}

/// Deadlines on both sides of the clock's wrap, and the sign's edges.
#[test]
fn wraps() {
    let mut table = Table::default();
    table.arm(u32::MAX - 4_999, &started(T3510, 15));
    table.arm(u32::MAX - 4_999, &started(T3511, 3));
    assert_eq!(table, table_of(&[(S3510, 10_000), (S3511, u32::MAX - 1_999)]));
    assert_eq!(table.ask(u32::MAX - 2_000), None);
    assert_eq!(table.ask(u32::MAX), Some(S3511));
    assert_eq!(table.ask(10_000), Some(S3511));
    table.slots[S3511] = Slot::default();
    assert_eq!((table.ask(9_999), table.ask(10_000)), (None, Some(S3510)));
    assert_eq!(table.ask(0x8000_0000 + 9_999), Some(S3510));
    assert_eq!(table.ask(0x8000_0000 + 10_000), None);
}

/// A lap's end is no naming, and the next lap begins where the last one ended.
#[test]
fn laps() {
    let mut table = Table::default();
    let start: u32 = 0xFFFF_0000;
    table.arm(start, &started(T3512, (LONGEST / 1000) as u32));
    assert_eq!(table.slots[S3512], held(0x7FFE_FFFF, LONGEST - LAP));
    for lap in 1..=16 {
        let ends = start as u64 + lap * LAP;
        assert_eq!(table.slots[S3512].ends, ends as u32);
        assert_eq!((table.ask(ends as u32 - 1), table.ask(ends as u32 + 599_999)), (None, None));
    }
    let end = start as u64 + LONGEST;
    assert_eq!(table.slots[S3512], held(end as u32, 0));
    assert_eq!((table.ask(end as u32 - 1), table.ask(end as u32)), (None, Some(S3512)));
    // The shortest length of two laps, and one that just fits into one.
    table.arm(0, &started(T3512, 2_147_484));
    assert_eq!(table.slots[S3512], held(0x7FFF_FFFF, 353));
    table.arm(0, &started(T3512, 2_147_483));
    assert_eq!(table.slots[S3512], held(2_147_483_000, 0));
}

/// An ask as late as the sign allows rolls two laps, and one that is later none.
#[test]
fn two_laps_at_one_ask() {
    let mut table = Table::default();
    table.slots[S3512] = held(5, 3 * LAP);
    assert_eq!(table.ask(0x7FFF_FFFF + 5), None);
    assert_eq!(table.slots[S3512], held(5u32.wrapping_add(2 * LAP as u32), LAP));
    table.slots[S3512] = held(5, LAP);
    assert_eq!(table.ask(0x7FFF_FFFF + 5), Some(S3512));
    table.slots[S3512] = held(5, LAP);
    assert_eq!(table.ask(0x8000_0000 + 5), None);
    assert_eq!(table.slots[S3512], held(5, LAP));
}

/// To the first end of a lap, by the wrapping clock, and 600 s at most.
#[test]
fn waits() {
    assert_eq!((Table::default().wait(0), Table::default().wait(u32::MAX)), (WAIT, WAIT));
    for slot in 0..NONE {
        let table = table_of(&[(slot, 3_000), ((slot + 1) % NONE, 4_000)]);
        assert_eq!((table.wait(2_999), table.wait(0), table.wait(u32::MAX)), (1, 3_000, 3_001));
        assert_eq!((table.wait(3_000), table.wait(3_001), table.wait(0x8000_0BB7)), (0, 0, 0));
    }
    // As far ahead as there may be, where the sign turns.
    let table = table_of(&[(S3510, 5)]);
    assert_eq!((table.wait(0x8000_0004), table.wait(0x8000_0005)), (0, WAIT));
    let edge = 5u32.wrapping_sub(WAIT);
    assert_eq!([edge - 1, edge, edge + 1].map(|now| table.wait(now)), [WAIT, WAIT, WAIT - 1]);
    // One that is not held has no end, whatever its numbers; one that is held has, by any number.
    let mut table = table.clone();
    table.slots[S3511] = Slot { held: 0, ends: 3, rests: 9 };
    assert_eq!(table.wait(2), 3);
    table.slots[S3511].held = 255;
    assert_eq!(table.wait(2), 1);
}

/// A lap's end wakes up too, and the round there rolls it. By such sleeps alone no timer is late.
#[test]
fn waits_for_laps() {
    let (mut record, mut table) = (limited(3), Table::default());
    record.t3512 = true;
    let (start, mut woken) = (0xFFFF_0000u64, 0);
    table.arm(start as u32, &started(T3512, (LONGEST / 1000) as u32));
    let mut now = start;
    while record.t3512 {
        woken += u64::from(table.slots[S3512].ends == now as u32);
        let ran = round(&mut record, &mut table, now as u32);
        assert_eq!(ran.is_empty(), now < start + LONGEST);
        if ran.is_empty() {
            let most = table.wait(now as u32);
            assert!(most > 0);
            now += u64::from(most);
        }
    }
    assert_eq!((now, woken), (start + LONGEST, 17));
}

/// A slot is held exactly while its timer runs.
#[test]
fn a_table_that_does_not_fit() {
    let mut record = limited(3);
    assert!(Table::default().fits(&record));
    let reply = record.start(0, 0, area(AWAY));
    assert!(!Table::default().fits(&record));
    let mut table = Table::default();
    table.arm(0, &reply);
    assert!(table.fits(&record));
    for slot in 0..NONE {
        let mut other = table.clone();
        other.slots[slot].held ^= 1;
        assert!(!other.fits(&record), "slot {slot}");
        other.slots[slot].held = 2;
        assert!(!other.fits(&record), "slot {slot} of 2");
    }
    // Each timer has the slot of its own.
    for (slot, flag) in FLAGS.into_iter().enumerate() {
        let mut record = limited(3);
        *flag(&mut record) = true;
        for other in 0..NONE {
            assert_eq!(table_of(&[(other, 0)]).fits(&record), other == slot);
        }
    }
}

/// Attempts on a clock that wraps after ten seconds: T3510, T3511, .. and T3502 at the fifth.
#[test]
fn a_round_runs_what_is_due() {
    let (mut record, mut table) = (limited(3), Table::default());
    let mut now = u32::MAX - 9_999;
    for attempt in 1..=5 {
        table.arm(now, &record.start(0, 0, area(AWAY)));
        assert!(round(&mut record, &mut table, now.wrapping_add(14_999)).is_empty());
        now = now.wrapping_add(15_400);
        let ran = round(&mut record, &mut table, now);
        assert_eq!((slots(&ran), ran[0].reply.answer), (vec![S3510], 0));
        assert_eq!(record.access[0].attempts, attempt);
        assert!(table.fits(&record));
        let (slot, length) = if attempt < 5 { (S3511, 10_000) } else { (S3502, 720_000) };
        assert_eq!(table, table_of(&[(slot, now.wrapping_add(length))]));
        now = now.wrapping_add(length);
        let ran = round(&mut record, &mut table, now);
        assert_eq!((slots(&ran), ran[0].reply.restart), (vec![slot], Some(0)));
        assert_eq!(table, Table::default());
    }
}

/// What one round starts with a length is not due in it, with none it is, behind what was due.
#[test]
fn started_in_the_round() {
    for (length, names) in [(720, vec![S3510, S3247]), (0, vec![S3510, S3247, S3502])] {
        let (mut record, mut table) = (limited(3), Table::default());
        record.access[0].t3502_length = length;
        table.arm(0, &fifth(&mut record, 0));
        record.t3247 = true;
        table.slots[S3247] = held(15_001, 0);
        assert_eq!(slots(&round(&mut record, &mut table, 15_002)), names);
        assert_eq!(record.access[0].t3502, length > 0);
        assert!(table.fits(&record));
    }
}

/// As many as run out in one round: ten, T3502 once at most. Where it is out before T3510, it has
/// taken the attempts to 0, so that T3510 starts T3511, and that is not due any more.
#[test]
fn ten_run_out_at_most() {
    for (ends, names) in
        [(7, vec![0, 1, 2, 3, 6, 7, 8, 9, 4, 5]), (6, vec![4, 5, 0, 1, 6, 7, 8, 9])]
    {
        let (mut record, mut table) = (limited(3), Table::default());
        for a in 0..2 {
            fifth(&mut record, a);
            let access = &mut record.access[a];
            access.t3502_length = 0;
            (access.t3511, access.t3502, access.t3346) = (true, true, true);
        }
        (record.t3247, record.t3512) = (true, true);
        valid(&record);
        table.slots = [held(7, 0); NONE];
        (table.slots[S3502].ends, table.slots[S3502 + 1].ends) = (ends, ends);
        assert!(table.fits(&record));
        let ran = round(&mut record, &mut table, 9);
        assert_eq!(slots(&ran), names);
        assert!(ran.len() <= MOST && ran.iter().all(|one| one.reply.answer == TAKEN));
        let again =
            if ends == 6 { table_of(&[(2, 10_009), (3, 10_009)]) } else { Table::default() };
        assert_eq!(table, again);
        assert!(table.fits(&record));
    }
}

/// Any timers that run and any deadlines: no slot runs out twice in a round, and none that is due
/// is left.
#[test]
fn each_runs_out_once_in_a_round() {
    let mut draws = Draws(1);
    let mut most = 0;
    for _ in 0..100_000 {
        let (mut record, mut table) = (limited(3), Table::default());
        for a in 0..2 {
            fifth(&mut record, a);
            record.access[a].attempts = draws.below(6);
            record.access[a].t3502_length = draws.below(2).into();
        }
        for (flag, slot) in FLAGS.into_iter().zip(&mut table.slots) {
            *flag(&mut record) = draws.below(5) > 0;
            if *flag(&mut record) {
                *slot = held(0u32.wrapping_sub(draws.below(4).into()), 0);
            }
        }
        valid(&record);
        let mut ran = slots(&round(&mut record, &mut table, 0));
        assert!(table.fits(&record) && table.ask(0).is_none());
        most = most.max(ran.len());
        ran.sort();
        assert!(ran.windows(2).all(|pair| pair[0] < pair[1]), "{ran:?}");
    }
    assert_eq!(most, NONE);
}
