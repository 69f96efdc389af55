// The registration request: writing and reading back, with request R-3's container and what R-7
// adds in the mapped case.

use crate::identity::{self, S1};
use crate::message::{cut, element, head_fault, Fault, Within};
use crate::record::{
    Guti, Record, DEEP, INITIAL, INITIATED, NO_KEY, PERIODIC, RANGE, SHORT, STATE, UNFIT,
};
use std::ops::Range;

/// What stands before the contents of 70, 71 and 77: the identifier and a length of two octets.
const BEFORE: usize = 3;
/// The longest 2E, and what only the whole request has: the longest 10, and 52.
const SECURITY: usize = 2 + 8;
const HIDDEN: usize = (2 + 13) + 7;
/// The longest clear part without the mapped case: head, SUCI of 64 and 2E.
const CLEAR: usize = 6 + 64 + SECURITY;
/// The longest request if nothing is lent: the clear part, and in a container the same with what it
/// hides, 40 and 50. Named by tests alone.
#[allow(dead_code)]
pub const LONGEST: usize = CLEAR + BEFORE + (CLEAR + HIDDEN + 4 + 4);
/// The longest attach message that may be lent.
pub const LONGEST_ATTACH: usize = 65_000;
/// The longest clear part in the mapped case: head, GUTI and 2E, then 77, 2B and 70.
const MAPPED: usize = 6 + 11 + SECURITY + (BEFORE + 11) + 3 + (BEFORE + LONGEST_ATTACH);
/// The longest request of all. It is an initial registration, so that it has no 40 and 50.
pub const LONGEST_FROM_S1: usize = MAPPED + BEFORE + (MAPPED + HIDDEN);
/// How many requests in one another are read: the outer one and the one in its container.
const LEVELS: usize = 2;

/// An element with a length of one octet.
fn short(identifier: u8, contents: &[u8]) -> Vec<u8> {
    [&[identifier, contents.len() as u8], contents].concat()
}

/// An element with a length of two octets.
fn long(identifier: u8, contents: &[u8]) -> Vec<u8> {
    let [high, low] = (contents.len() as u16).to_be_bytes();
    [&[identifier, high, low], contents].concat()
}

/// One request without a container: the clear part, and if `whole` its hidden elements too.
fn single(record: &Record, a: usize, identity: &[u8], whole: bool) -> Vec<u8> {
    let access = &record.access[a];
    let fourth = access.ksi * 16 + access.regtype;
    let mut out = vec![0x7E, 0x00, 0x41, fourth, 0, identity.len() as u8];
    out.extend(identity);
    if whole {
        out.extend(short(0x10, &record.capability));
    }
    out.extend(short(0x2E, &record.security));
    if let (true, Some(area)) = (whole, access.last) {
        out.push(0x52);
        out.extend(area);
    }
    if whole && access.regtype != INITIAL {
        if access.uplink != [0; 2] {
            out.extend(short(0x40, &access.uplink));
        }
        out.extend(short(0x50, &access.sessions));
    }
    out
}

/// What the mapped case adds: 77 with document 01's GUTI if one is held, 2B that says "not in
/// EMM-REGISTERED", and 70 with the attach message if there is one.
fn added(best: Option<Guti>, attach: &[u8]) -> Vec<u8> {
    let mut out = Vec::new();
    if let Some(guti) = best {
        out.extend(long(0x77, &identity::sent(&guti)));
    }
    out.extend(short(0x2B, &[0x00]));
    if !attach.is_empty() {
        out.extend(long(0x70, attach));
    }
    out
}

/// The clear part, and with a key set the whole request in a container behind it. What the mapped
/// case adds comes last in both.
fn build(record: &Record, a: usize, s1: &S1, attach: &[u8]) -> Vec<u8> {
    let best = identity::best(record, a);
    let (identity, last) = match (identity::from_s1(record, a, s1), best) {
        (Some(guti), best) => (identity::sent(&guti).to_vec(), added(best, attach)),
        (None, Some(guti)) => (identity::sent(&guti).to_vec(), vec![]),
        (None, None) => (record.suci.to_vec(), vec![]),
    };
    let request = |whole| [single(record, a, &identity, whole), last.clone()].concat();
    let mut out = request(false);
    if record.access[a].ksi != NO_KEY {
        out.extend(long(0x71, &request(true)));
    }
    out
}

/// Writes the request into the lent buffer and gives its length, or answer 1, 6 or 12. An attach
/// message that is too long is refused even where it would not be sent.
pub fn write(
    record: &Record,
    access: u8,
    s1: S1,
    attach: &[u8],
    buffer: &mut [u8],
) -> Result<usize, u8> {
    if access > 1 || attach.len() > LONGEST_ATTACH {
        return Err(RANGE);
    }
    let a = access as usize;
    if record.access[a].state != INITIATED {
        return Err(STATE);
    }
    let out = build(record, a, &s1, attach);
    let place = buffer.get_mut(..out.len()).ok_or(SHORT)?;
    place.copy_from_slice(&out);
    Ok(out.len())
}

/// What a request says, each part by its place in the outermost octets.
#[derive(Clone, PartialEq, Debug)]
pub struct Request {
    pub regtype: u8,
    pub ksi: u8,
    pub identity: Range<usize>,
    pub capability: Option<Range<usize>>,
    pub security: Range<usize>,
    pub area: Option<Range<usize>>,
    pub uplink: Option<Range<usize>>,
    pub sessions: Option<Range<usize>>,
    /// The GUTI in 77, with its F2.
    pub additional: Option<Range<usize>>,
    /// The octet of 2B.
    pub status: Option<Range<usize>>,
    /// The message in 70.
    pub attach: Option<Range<usize>>,
}

/// Reads a request back, elements in any order; with a request in its container, that one. The
/// lowest fault of the levels opened is told first, then a level too many, then answer 3, which
/// is for well-formed requests of which one breaks the layout, and names no octet.
pub fn read(octets: &[u8]) -> Result<Request, Fault> {
    let mut level = Level::of(octets, 0..octets.len());
    let mut request = level.request(octets);
    let mut faults = vec![level.fault];
    for _ in 1..LEVELS {
        let Some(part) = level.container() else { break };
        level = Level::of(octets, part);
        // The inner one is the message, but each level keeps the layout.
        request = request.and(level.request(octets));
        faults.push(level.fault);
    }
    if let Some(fault) = faults.into_iter().flatten().min_by_key(|fault| (fault.at, fault.number)) {
        return Err(fault);
    }
    if let Some(part) = level.container() {
        return Err(Fault { number: DEEP, at: part.start - BEFORE });
    }
    request.ok_or(Fault { number: UNFIT, at: 0 })
}

/// The elements that are looked at, the container last.
const KNOWN: [u8; 9] = [0x10, 0x2E, 0x52, 0x40, 0x50, 0x77, 0x2B, 0x70, 0x71];

/// One of the requests in one another, as far as it is read.
#[derive(Default)]
struct Level {
    fourth: u8,
    identity: Range<usize>,
    /// Where the contents of the first of each known element lie.
    first: [Option<Range<usize>>; KNOWN.len()],
    fault: Option<Fault>,
}

impl Level {
    /// The request in a part of the outermost octets.
    fn of(octets: &[u8], part: Range<usize>) -> Level {
        let mut level = Level::default();
        level.fault = level.walk(&octets[..part.end], part.start).err();
        level
    }

    /// Reads from `start` on. The octets end with this request and begin with the outermost, so
    /// what is counted from their end is an offset in the outermost one.
    fn walk(&mut self, octets: &[u8], start: usize) -> Result<(), Fault> {
        let [0x7E, 0, 0x41, fourth, high, low, rest @ ..] = &octets[start..] else {
            let fault = head_fault(&octets[start..], |kind| kind == 0x41);
            return Err(Fault { at: start + fault.at, ..fault });
        };
        let length = u16::from_be_bytes([*high, *low]) as usize;
        let (identity, mut rest) = rest.split_at_checked(length).ok_or(cut(octets))?;
        self.fourth = *fourth;
        self.identity = start + 6..start + 6 + identity.len();
        while !rest.is_empty() {
            let (identifier, contents) = element(octets, &mut rest, Within::Request)?;
            let end = octets.len() - rest.len();
            if let Some(kind) = KNOWN.iter().position(|&known| known == identifier) {
                self.first[kind].get_or_insert(end - contents.len()..end);
            }
        }
        Ok(())
    }

    /// The contents of the container; an empty one is absent, even if a full one follows.
    fn container(&self) -> Option<Range<usize>> {
        self.first[KNOWN.len() - 1].clone().filter(|part| !part.is_empty())
    }

    /// What a well-formed request says by itself; None if it breaks the layout.
    fn request(&self, octets: &[u8]) -> Option<Request> {
        let (ksi, regtype) = (self.fourth >> 4, self.fourth & 15);
        let identity = self.identity.clone();
        if !(INITIAL..=PERIODIC).contains(&regtype)
            || ksi > NO_KEY
            || !identified(&octets[identity.clone()])
        {
            return None;
        }
        let [capability, security, area, uplink, sessions, additional, status, attach, _] =
            self.first.clone();
        let capability = capability.filter(|part| !part.is_empty());
        let security = security.filter(|part| part.len() >= 2)?;
        if capability.as_ref().is_some_and(|part| part.len() > 13) || security.len() > 8 {
            return None;
        }
        Some(Request {
            regtype,
            ksi,
            identity,
            capability,
            security,
            area,
            uplink: front(uplink, 2),
            sessions: front(sessions, 2),
            additional: front(additional, 11).filter(|part| octets[part.start] == 0xF2),
            status: front(status, 1),
            attach: attach.filter(|part| !part.is_empty()),
        })
    }
}

/// Whether an identity is of one of the two kinds, with its length.
fn identified(identity: &[u8]) -> bool {
    match identity {
        [0xF2, guti @ ..] => guti.len() == 10,
        [0x01, ..] => (9..=64).contains(&identity.len()),
        _ => false,
    }
}

/// The first octets of an element's contents; further ones are ignored, fewer are none.
fn front(contents: Option<Range<usize>>, count: usize) -> Option<Range<usize>> {
    let part = contents.filter(|part| part.len() >= count)?;
    Some(part.start..part.start + count)
}
