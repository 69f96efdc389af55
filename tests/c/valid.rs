// Whether document 01, with the fields of, takes the octets of a record as a valid one.
use crate::second::{CAccess, CDevice, CEntries, CRecord};

pub fn network(n: u32) -> bool {
    let digit = |at: u32| n >> at & 15;
    n >> 24 == 0 && (0..24).step_by(4).all(|at| digit(at) < 10 || (at == 12 && digit(at) == 15))
}

/// At most forty areas, none twice; the lowest bit is the protected mark.
fn list(items: &[u64; 40], count: u8) -> bool {
    let count = count as usize;
    count <= 40 && (0..count).all(|i| items[i] >> 49 == 0 && items[..i].iter().all(|item| item / 2 != items[i] / 2))
}

fn entries(d: &CDevice, e: &CEntries, count: u8) -> bool {
    let (nets, count) = (e.nets, count as usize);
    let fits = |i: usize| e.bans[i] <= d.limits[1] && e.n1s[i] <= d.limits[2] && e.forbidden[i] <= 1 && e.barred[i] <= 1;
    count <= 16 && (0..count).all(|i| network(nets[i]) && fits(i) && !nets[..i].contains(&nets[i])) && ranks(&e.ranks[..count])
}

/// Each of 0 to one below the count stands once.
fn ranks(held: &[u8]) -> bool {
    (0..held.len()).all(|rank| held.contains(&(rank as u8)))
}

fn access(d: &CDevice, a: &CAccess, equivalents: [u32; 15]) -> bool {
    let flags = [a.t3510, a.t3511, a.t3502, a.t3346, a.guti, a.visited];
    a.state <= 6
        && (a.state == 0 || d.card == 1)
        && (1..=3).contains(&a.status)
        && a.attempts <= 5
        && a.cardcounter <= d.limits[0]
        && flags.iter().all(|&flag| flag <= 1)
        && a.t3502length <= 11160
        && (a.t3510 == 0 || a.state == 4)
        && network(a.net)
        && a.code >> 24 == 0
        && (1..=3).contains(&a.regtype)
        && a.uplink % 2 == 0
        && a.sessions % 2 == 0
        && a.ksi <= 7
        && a.equivalents <= 15
        && equivalents[..a.equivalents as usize].iter().all(|net| net >> 24 == 0)
        && (a.visited == 0 || (a.lastnet >> 24 == 0 && a.lastcode >> 24 == 0))
}

fn device(r: &CRecord) -> bool {
    let d = &r.dev;
    [d.card, d.t3247, d.t3512, d.due].iter().all(|&flag| flag <= 1)
        && d.t3512length <= 35_712_000
        && network(d.home)
        && (d.card == 0 || ((9..=64).contains(&d.suci) && r.suci[0] == 1))
        && d.limits.iter().all(|limit| (1..=10).contains(limit))
        && (1..=13).contains(&d.capability)
        && (2..=8).contains(&d.security)
        && (1..=3).contains(&d.edition)
}

pub fn valid(r: &CRecord) -> bool {
    let (roaming, regional, equivalents) = (r.roaming, r.regional, r.equivalents);
    let held = |i: usize| access(&r.dev, &r.access[i], equivalents[i]) && entries(&r.dev, &r.entries[i], r.access[i].entries);
    device(r) && list(&roaming, r.dev.roaming) && list(&regional, r.dev.regional) && held(0) && held(1)
}
