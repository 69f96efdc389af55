// The deadlines of document 02's request R-13: a table beside the record, and the asking round
// that runs what is due, on a clock of 32 bits that counts milliseconds and wraps. A difference
// of two clock times is taken as signed, so it is the true one while that is below 2^31 ms.

use crate::record::{Change, Record, Reply, T3247, T3346, T3502, T3510, T3511, T3512};

/// The reply that no timer is due, in numbers.
pub const NONE: usize = 10;
/// As many timers a round has at most. No timer runs out twice in a round, since T3502 takes the
/// attempts to 0, and T3510 behind it starts T3511.
pub const MOST: usize = 10;
/// As long is a sleep at most, in milliseconds: rounds start no further apart.
pub const WAIT: u32 = 600_000;
/// The longest lap, in milliseconds.
const LAP: u64 = 2_147_483_647;
const MILLISECONDS: u64 = 1000;

/// The slots in the order of ties: a timer's number and access in the log, and its place in a
/// reply.
const ORDER: [(u8, u8, usize); NONE] = [
    (1, 0, T3510),
    (1, 1, T3510 + 1),
    (2, 0, T3511),
    (2, 1, T3511 + 1),
    (3, 0, T3502),
    (3, 1, T3502 + 1),
    (6, 0, T3346),
    (6, 1, T3346 + 1),
    (5, 0, T3512),
    (4, 0, T3247),
];

/// A timer's deadline; one that does not run is all zeros.
#[derive(Clone, Copy, PartialEq, Eq, Debug, Default)]
pub struct Slot {
    pub held: u8,
    /// The clock's time at which the lap ends.
    pub ends: u32,
    /// The milliseconds behind that lap.
    pub rests: u64,
}

impl Slot {
    /// A length in milliseconds that begins at a clock time.
    fn start(from: u32, length: u64) -> Slot {
        let lap = length.min(LAP);
        Slot { held: 1, ends: from.wrapping_add(lap as u32), rests: length - lap }
    }

    /// How far the clock is past the lap's end; below 0 before it.
    fn past(&self, now: u32) -> i32 {
        now.wrapping_sub(self.ends) as i32
    }

    /// The milliseconds to the lap's end; none if that is past.
    fn left(&self, now: u32) -> u32 {
        if self.past(now) >= 0 {
            return 0;
        }
        self.ends.wrapping_sub(now)
    }

    /// The next lap begins where the last one ended, however late that is seen.
    fn roll(&mut self, now: u32) {
        while self.held != 0 && self.rests > 0 && self.past(now) >= 0 {
            *self = Slot::start(self.ends, self.rests);
        }
    }

    fn due(&self, now: u32) -> bool {
        self.held != 0 && self.rests == 0 && self.past(now) >= 0
    }
}

#[derive(Clone, PartialEq, Eq, Debug, Default)]
pub struct Table {
    pub slots: [Slot; NONE],
}

impl Table {
    /// What a reply says of the timers, done at a clock time.
    pub fn arm(&mut self, now: u32, reply: &Reply) {
        for (slot, (_, _, place)) in self.slots.iter_mut().zip(ORDER) {
            match reply.timers[place] {
                Change::Left => {}
                Change::Stopped => *slot = Slot::default(),
                Change::Started(seconds) => {
                    *slot = Slot::start(now, u64::from(seconds) * MILLISECONDS);
                }
            }
        }
    }

    /// The slot furthest past its deadline, of equals the first. The end of a lap that is not the
    /// last is no deadline.
    pub fn ask(&mut self, now: u32) -> Option<usize> {
        for slot in &mut self.slots {
            slot.roll(now);
        }
        let due = (0..NONE).filter(|&slot| self.slots[slot].due(now));
        // The last of equals is what max_by_key takes, so they come from the back.
        due.rev().max_by_key(|&slot| self.slots[slot].past(now))
    }

    /// For how many milliseconds firmware may sleep until its next round: to the first end of a
    /// lap, be it the last one or not.
    pub fn wait(&self, now: u32) -> u32 {
        let held = self.slots.iter().filter(|slot| slot.held != 0);
        held.map(|slot| slot.left(now)).fold(WAIT, u32::min)
    }

    /// Whether a slot is held exactly while its timer runs.
    pub fn fits(&self, r: &Record) -> bool {
        let [a, b] = &r.access;
        let running = [
            a.t3510, b.t3510, a.t3511, b.t3511, a.t3502, b.t3502, a.t3346, b.t3346, r.t3512,
            r.t3247,
        ];
        self.slots.iter().zip(running).all(|(slot, runs)| slot.held == u8::from(runs))
    }
}

/// A timer that ran out in a round, and what its event returned.
pub struct Ran {
    pub slot: usize,
    pub reply: Reply,
}

/// An asking round: runs what is due until nothing is. The record is valid and the table fits it.
pub fn round(r: &mut Record, t: &mut Table, now: u32) -> Vec<Ran> {
    let mut ran = Vec::new();
    while let Some(slot) = t.ask(now) {
        let (number, access, _) = ORDER[slot];
        let reply = Reply::to(|reply| r.on_timer(reply, number, access));
        t.arm(now, &reply);
        ran.push(Ran { slot, reply });
    }
    ran
}
