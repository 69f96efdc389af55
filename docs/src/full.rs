// The whole reply and the whole record as a line of text, for `--full`.
//
// One line after each event's line, four parts split by ` | `, words split by spaces:
//   = ANSWER at OFFSET T3510 C C T3511 C C T3502 C C T3346 C C T3247 C T3512 C restart A
//     leave A update A
//   | card C home HEX suci HEX limits CARD BAN N1 cap HEX sec HEX edition N T3247 B T3512 B
//     length SECONDS due B roaming AREAS regional AREAS
//   | 0 state N status N attempts N T3510 B T3511 B T3502 B length SECONDS T3346 B
//     pending HEX type N uplink HEX sessions HEX guti HEX last HEX ksi N
//     equivalents NETWORKS cards N entries ENTRIES
//   | 1 ... (the same for access 1)
// OFFSET: of the octet at fault for answers 13 to 18, else 0.
// C of a timer, access 0 then 1: `left`, `stopped` or `started:SECONDS`. A: the access a
// request is meant for, or `-`. B, C of the card: 0 or 1. HEX: lower case, `-` if none;
// uplink and sessions are the two octets as sent, 0000 for no session. The length before
// `due` is the time kept for T3512, the one of an access its T3502's.
// Lists: `-` if empty, else joined by commas in the order held. AREAS: six octets and `:p`
// (protected) or `:u`. ENTRIES: network, ban counter, N1 counter and marks joined by
// colons, the marks `F` or `-` (forbidden) then `N` or `-` (N1 not allowed). The order of
// R-9 is not printed: it shows in who gives up its place, and tests/c holds its octets.

use crate::record::{Access, Areas, Change, Record, Reply, T3247, T3512};
use std::fmt::Write;

/// Writing to a string never fails.
macro_rules! put {
    ($text:expr, $($rest:tt)*) => { let _ = write!($text, $($rest)*); };
}

pub fn hex(text: &mut String, octets: &[u8]) {
    if octets.is_empty() {
        text.push('-');
    }
    for octet in octets {
        put!(text, "{octet:02x}");
    }
}

fn joined<T>(text: &mut String, items: &[T], show: impl Fn(&mut String, &T)) {
    if items.is_empty() {
        text.push('-');
    }
    for (place, item) in items.iter().enumerate() {
        if place > 0 {
            text.push(',');
        }
        show(text, item);
    }
}

fn change(text: &mut String, change: Change) {
    match change {
        Change::Left => text.push_str(" left"),
        Change::Stopped => text.push_str(" stopped"),
        Change::Started(seconds) => {
            put!(text, " started:{seconds}");
        }
    }
}

fn asked(text: &mut String, name: &str, access: Option<u8>) {
    match access {
        Some(access) => {
            put!(text, " {name} {access}");
        }
        None => {
            put!(text, " {name} -");
        }
    }
}

pub fn reply(text: &mut String, reply: &Reply) {
    put!(text, "= {} at {}", reply.answer, reply.offset);
    for (kind, name) in ["T3510", "T3511", "T3502", "T3346"].iter().enumerate() {
        put!(text, " {name}");
        change(text, reply.timers[2 * kind]);
        change(text, reply.timers[2 * kind + 1]);
    }
    text.push_str(" T3247");
    change(text, reply.timers[T3247]);
    text.push_str(" T3512");
    change(text, reply.timers[T3512]);
    asked(text, "restart", reply.restart);
    asked(text, "leave", reply.leave);
    asked(text, "update", reply.update);
}

fn areas(text: &mut String, areas: &Areas) {
    joined(text, areas, |text, held| {
        hex(text, &held.area);
        text.push_str(if held.protected { ":p" } else { ":u" });
    });
}

fn access(text: &mut String, access: &Access) {
    put!(text, " state {} status {} attempts {}", access.state, access.status, access.attempts);
    let running = [access.t3510, access.t3511, access.t3502].map(u8::from);
    put!(text, " T3510 {} T3511 {} T3502 {}", running[0], running[1], running[2]);
    put!(text, " length {} T3346 {} pending ", access.t3502_length, access.t3346 as u8);
    hex(text, &access.pending);
    put!(text, " type {} uplink ", access.regtype);
    hex(text, &access.uplink);
    text.push_str(" sessions ");
    hex(text, &access.sessions);
    text.push_str(" guti ");
    hex(text, access.guti.as_ref().map_or(&[], |guti| guti));
    text.push_str(" last ");
    hex(text, access.last.as_ref().map_or(&[], |area| area));
    put!(text, " ksi {} equivalents ", access.ksi);
    joined(text, &access.equivalents, |text, network| hex(text, network));
    put!(text, " cards {} entries ", access.cards);
    joined(text, &access.entries, |text, entry| {
        hex(text, &entry.network.octets());
        let forbidden = if entry.forbidden { 'F' } else { '-' };
        let barred = if entry.n1_barred { 'N' } else { '-' };
        put!(text, ":{}:{}:{forbidden}{barred}", entry.ban, entry.n1);
    });
}

pub fn record(text: &mut String, record: &Record) {
    put!(text, " | card {} home ", record.card as u8);
    hex(text, &record.home);
    text.push_str(" suci ");
    hex(text, &record.suci);
    let limits = record.limits;
    put!(text, " limits {} {} {} cap ", limits.card, limits.ban, limits.n1);
    hex(text, &record.capability);
    text.push_str(" sec ");
    hex(text, &record.security);
    put!(text, " edition {}", record.edition);
    put!(text, " T3247 {} T3512 {}", record.t3247 as u8, record.t3512 as u8);
    put!(text, " length {} due {} roaming ", record.t3512_length, record.due as u8);
    areas(text, &record.roaming);
    text.push_str(" regional ");
    areas(text, &record.regional);
    for (a, held) in record.access.iter().enumerate() {
        put!(text, " | {a}");
        access(text, held);
    }
}
