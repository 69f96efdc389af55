// What R-13 is about: the deadlines that a notice gives, the timer that is due, an asking round, and how long firmware may sleep, judged by the second program, and how often each
// case came.
use crate::deadlines::WAIT as LONGEST;
use crate::draws::{flags, Ask};
use crate::second::{self, CTable};
use crate::valid::valid;
use crate::{alike, equal, hold, numbers, Got, Plain, ARM, ASK, LAP, RAN, ROUND, SHORT, WAIT, WORDS};

/// What an answer counts from 256 on is a refusal.
const REFUSED: u32 = 256;
const RANGE: u32 = REFUSED + 1;
/// The slots of T3510 and T3502, the access added.
const T3510: usize = 0;
const T3502: usize = 4;
const SLOTS: usize = 10;

fn judge_table(ask: &Ask, got: &Got, what: &str, (answer, table): (u32, CTable)) -> Result<(), String> {
    equal(&format!("the answer of {what}"), got.answer, answer)?;
    alike(&format!("the table after {what}"), got.table.octets(), table.octets())?;
    alike("the record, which is not lent,", got.record.octets(), ask.record.octets())
}

pub fn judge_arm(ask: &Ask, got: &Got) -> Result<(), String> {
    judge_table(ask, got, "an arm", second::arm(&ask.table, ask.kind, &ask.notice))
}

pub fn judge_ask(ask: &Ask, got: &Got) -> Result<(), String> {
    judge_table(ask, got, "an ask", second::ask(&ask.table, ask.kind))
}

pub fn judge_wait(ask: &Ask, got: &Got) -> Result<(), String> {
    judge_table(ask, got, "a wait", second::wait(&ask.table, ask.kind))
}

/// What a round is to answer where it is refused.
fn refusal(ask: &Ask) -> Option<u32> {
    if !valid(&ask.record) || !second::fits(&ask.record, &ask.table) {
        Some(RANGE)
    } else {
        (ask.words() < WORDS).then_some(SHORT)
    }
}

pub fn judge_round(ask: &Ask, got: &Got) -> Result<(), String> {
    if let Some(answer) = refusal(ask) {
        equal("the answer of a round", got.answer, answer)?;
        alike("the record of a refused round", got.record.octets(), ask.record.octets())?;
        alike("the table of a refused round", got.table.octets(), ask.table.octets())?;
        return alike("the list of a refused round", &got.arrays[1], &ask.arrays[1]);
    }
    let (count, record, table, ran) = second::round(&ask.record, &ask.table, ask.kind);
    equal("the count of a round", got.answer, count)?;
    hold(valid(&got.record), "the round made the record invalid")?;
    alike("the record after a round", second::tidy(&got.record).octets(), record.octets())?;
    alike("the table after a round", got.table.octets(), table.octets())?;
    hold(got.table.held == flags(&got.record), "the table after a round does not fit the record")?;
    alike("the list of a round", &got.arrays[1], &[&ran, &ask.arrays[1][ran.len()..]].concat())
}

#[derive(Default)]
pub struct Tally {
    arms: [u64; 7],
    unknown: [u64; SLOTS],
    asks: [u64; 13],
    named: [u64; SLOTS + 1],
    counts: [u64; SLOTS + 1],
    rounds: [u64; 8],
    refusals: [u64; 7],
    waits: [u64; 13],
    woken: [u64; SLOTS],
}

/// What a notice tells of the timers, in the order of the slots.
fn tolds(ask: &Ask) -> [[u32; 2]; SLOTS] {
    let (n, [c, d]) = (&ask.notice, ask.notice.clocks);
    [c[0], d[0], c[1], d[1], c[2], d[2], c[3], d[3], n.t3512, n.t3247]
}

/// A timer left that has a deadline, stopped that has one, started anew; started for no time, in one lap, in more laps, and across the wrap.
fn arms(ask: &Ask, got: &Got) -> [bool; 7] {
    if ask.call != ARM || got.answer != 0 {
        return [false; 7];
    }
    let (ends, rests) = (got.table.ends, got.table.rests);
    let some = |right: &dyn Fn(usize, u32, u32) -> bool| tolds(ask).iter().enumerate().any(|(i, [told, seconds])| right(i, *told, *seconds));
    let held = |i: usize| ask.table.held[i] > 0;
    [
        some(&|i, told, _| told == 0 && held(i)),
        some(&|i, told, _| told == 1 && held(i)),
        some(&|i, told, _| told == 2 && held(i)),
        some(&|_, told, seconds| told == 2 && seconds == 0),
        some(&|i, told, seconds| told == 2 && seconds > 0 && rests[i] == 0),
        some(&|i, told, _| told == 2 && rests[i] > 0),
        some(&|i, told, _| told == 2 && ends[i] < ask.kind),
    ]
}

/// An arm that is refused for the one timer of each slot.
fn unknown(ask: &Ask, got: &Got) -> [bool; SLOTS] {
    let bad = tolds(ask).map(|[told, _]| told > 2);
    let alone = ask.call == ARM && got.answer == 1 && bad.iter().filter(|bad| **bad).count() == 1;
    bad.map(|bad| bad && alone)
}

/// Of an ask: a timer named that is past by nothing, by as much as there may be, across the wrap, equally far as another; named though its `held` is none of 0 and 1; named in a lap
/// that began in this ask. One passed over that is due in a moment, as far off as there may be, not held though its numbers are past, in a lap that is not its last. A lap rolled once,
/// twice, and one whose next begins across the wrap.
fn asks(ask: &Ask, got: &Got) -> [bool; 13] {
    if ask.call != ASK {
        return [false; 13];
    }
    let (now, was, held) = (ask.kind, ask.table.ends, ask.table.held);
    let (ends, rests, old) = (got.table.ends, got.table.rests, ask.table.rests);
    let late = |i: usize| now.wrapping_sub(ends[i]);
    let due = |i: usize| held[i] > 0 && rests[i] == 0 && late(i) <= LAP;
    let named = |right: &dyn Fn(usize) -> bool| (got.answer as usize) < SLOTS && right(got.answer as usize);
    let some = |right: &dyn Fn(usize) -> bool| (0..SLOTS).any(right);
    let laps = |i: usize| (old[i] - rests[i]).div_ceil(LAP as u64);
    [
        named(&|i| late(i) == 0),
        named(&|i| late(i) == LAP),
        named(&|i| ends[i] > now),
        named(&|i| (i + 1..SLOTS).any(|j| due(j) && ends[i] == ends[j])),
        named(&|i| held[i] > 1),
        named(&|i| old[i] > 0),
        some(&|i| held[i] > 0 && late(i) == u32::MAX),
        some(&|i| held[i] > 0 && late(i) == LAP + 1),
        some(&|i| held[i] == 0 && rests[i] == 0 && late(i) <= LAP),
        some(&|i| held[i] > 0 && rests[i] > 0),
        some(&|i| laps(i) == 1),
        some(&|i| laps(i) == 2),
        some(&|i| laps(i) > 0 && ends[i] < was[i]),
    ]
}

fn which<const N: usize>(so: bool, at: u32) -> [bool; N] {
    std::array::from_fn(|i| so && i == at as usize)
}

/// The slots that ran out in a round, in their order.
fn ran(ask: &Ask, got: &Got) -> Option<Vec<usize>> {
    let count = got.answer as usize;
    (ask.call == ROUND && got.answer < REFUSED).then(|| numbers(&got.arrays[1]).iter().step_by(RAN as usize).take(count).map(|slot| *slot as usize).collect())
}

/// Of a round: T3502 ran out that T3510 started for 0 s in it, over each access; T3510 ran out behind T3502; a timer ran out before one that comes before it in the slots; T3511 runs on
/// that T3510 started; a round that leaves no timer; a list longer than it must be; numbers where no timer is held.
fn rounds(ask: &Ask, got: &Got) -> [bool; 8] {
    let Some(slots) = ran(ask, got) else { return [false; 8] };
    let at = |slot: usize| slots.iter().position(|one| *one == slot);
    let behind = |first: usize, second: usize| at(first).zip(at(second)).is_some_and(|(first, second)| first < second);
    let ended = |a: usize| behind(T3510 + a, T3502 + a) && got.record.access[a].t3502length == 0 && ask.record.access[a].attempts > 3;
    let retried = |a: usize| at(T3510 + a).is_some() && got.record.access[a].t3511 == 1;
    let ends = ask.table.ends;
    [
        ended(0),
        ended(1),
        behind(T3502, T3510) || behind(T3502 + 1, T3510 + 1),
        !slots.is_sorted(),
        retried(0) || retried(1),
        !slots.is_empty() && got.table.held == [0; SLOTS],
        ask.words() > WORDS,
        (0..SLOTS).any(|i| ask.table.held[i] == 0 && ends[i] > 0),
    ]
}

/// A round that is refused for one reason: the record, a timer held that does not run, one that runs and is not held, a `held` above 1, the list, by one number. Last, 1 where 12 is a
/// reason too.
fn refusals(ask: &Ask, got: &Got) -> [bool; 7] {
    if ask.call != ROUND || got.answer < REFUSED {
        return [false; 7];
    }
    let (held, runs, words) = (ask.table.held, flags(&ask.record), ask.words());
    let why = [!valid(&ask.record), held != runs, words < WORDS];
    let alone = |i: usize| why[i] && why.iter().filter(|why| **why).count() == 1;
    let parted = |right: fn(u8, u8) -> bool| alone(1) && (0..SLOTS).filter(|&i| held[i] != runs[i]).all(|i| right(held[i], runs[i]));
    [
        alone(0),
        parted(|held, runs| (held, runs) == (1, 0)),
        parted(|held, runs| (held, runs) == (0, 1)),
        parted(|held, _| held > 1),
        alone(2),
        alone(2) && words == WORDS - 1,
        got.answer == RANGE && words < WORDS,
    ]
}

/// The milliseconds to the end of a slot's lap, if it is held.
fn left(ask: &Ask, slot: usize) -> Option<u32> {
    let ends = ask.table.ends[slot];
    let ahead = if ask.kind.wrapping_sub(ends) <= LAP { 0 } else { ends.wrapping_sub(ask.kind) };
    (ask.table.held[slot] > 0).then_some(ahead)
}

/// Of a wait: none held; all ends further off than the longest wait, the first just as far, just before; one as far off as there may be, and no end sooner. 0 by an end at this time,
/// and with one as far past as there may be; 1; any between; across the wrap; by the end of a lap that is not the last; by one whose `held` is none of 0 and 1. One passed over that
/// is not held though its numbers are sooner.
fn waits(ask: &Ask, got: &Got) -> [bool; 13] {
    if ask.call != WAIT {
        return [false; 13];
    }
    let (now, answer, ends, rests, held) = (ask.kind, got.answer, ask.table.ends, ask.table.rests, ask.table.held);
    let first: Vec<usize> = (0..SLOTS).filter(|&i| left(ask, i) == Some(answer)).collect();
    let least = (0..SLOTS).filter_map(|i| left(ask, i)).min();
    let some = |right: &dyn Fn(usize) -> bool| (0..SLOTS).any(right);
    let (short, by) = (0 < answer && answer < LONGEST, |right: &dyn Fn(usize) -> bool| first.iter().all(|&i| right(i)));
    [
        least.is_none(),
        least.is_some_and(|least| least > LONGEST),
        least == Some(LONGEST),
        least == Some(LONGEST - 1),
        answer == LONGEST && some(&|i| left(ask, i) == Some(LAP + 1)),
        answer == 0 && by(&|i| ends[i] == now),
        answer == 0 && some(&|i| held[i] > 0 && now.wrapping_sub(ends[i]) == LAP),
        answer == 1,
        1 < answer && answer < LONGEST - 1,
        short && now.checked_add(answer).is_none(),
        short && by(&|i| rests[i] > 0),
        short && by(&|i| held[i] > 1),
        some(&|i| held[i] == 0 && ends[i].wrapping_sub(now) < answer),
    ]
}

/// A wait for the end of each slot, and of that one alone.
fn woken(ask: &Ask, got: &Got) -> [bool; SLOTS] {
    let first: [bool; SLOTS] = std::array::from_fn(|i| left(ask, i) == Some(got.answer));
    let alone = ask.call == WAIT && 0 < got.answer && got.answer < LONGEST && first.iter().filter(|first| **first).count() == 1;
    first.map(|first| first && alone)
}

impl Tally {
    pub fn count(&mut self, ask: &Ask, got: &Got) {
        let counts = self.arms.iter_mut().chain(&mut self.unknown).chain(&mut self.asks).chain(&mut self.named).chain(&mut self.counts);
        let counts = counts.chain(&mut self.rounds).chain(&mut self.refusals).chain(&mut self.waits).chain(&mut self.woken);
        let (named, count): ([bool; SLOTS + 1], [bool; SLOTS + 1]) = (which(ask.call == ASK, got.answer), which(ask.call == ROUND, got.answer));
        let came = [&arms(ask, got)[..], &unknown(ask, got), &asks(ask, got), &named, &count, &rounds(ask, got), &refusals(ask, got), &waits(ask, got), &woken(ask, got)].concat();
        for (count, came) in counts.zip(came) {
            *count += came as u64;
        }
    }

    pub fn unseen(&self) -> bool {
        let all = [&self.arms[..], &self.unknown, &self.asks, &self.named, &self.counts, &self.rounds, &self.refusals, &self.waits, &self.woken];
        all.iter().any(|counts| counts.contains(&0))
    }

    pub fn show(&self) {
        let [left, stopped, anew, zero, lap, laps, across] = self.arms;
        let [now, furthest, wrapped, tied, odd, ended, moment, far, free, rests, once, twice, over] = self.asks;
        let [mobile, wifi, behind, turned, retried, silent, longer, strange] = self.rounds;
        let [record, held, runs, above, short, one, before] = self.refusals;
        println!("fuzz: armed with a deadline left {left} times, stopped {stopped}, started anew {anew}; for 0 s {zero} times, in one lap {lap}, in more {laps}, across the wrap {across}");
        println!("fuzz: arms refused for what is told of slots 0 to 9 {:?} times", self.unknown);
        println!("fuzz: slots 0 to 9 named {:?} times, none {}", &self.named[..SLOTS], self.named[SLOTS]);
        println!("fuzz: named at its deadline {now} times, as far past it as can be {furthest}, across the wrap {wrapped}, first of equals {tied}, behind a lap {ended}");
        println!("fuzz: named though held by another number than 1 {odd} times; laps rolled once {once} times, twice {twice}, across the wrap {over}");
        println!("fuzz: passed over 1 ms ahead {moment} times, 2^31 ms ahead {far}, not held {free}, not in its last lap {rests}");
        println!("fuzz: 0 to 10 timers ran out in {:?} rounds, all that had a deadline in {silent}, not in the order of slots in {turned}", self.counts);
        println!("fuzz: T3502 started for 0 s in a round over access 0 {mobile} times, over access 1 {wifi}, out before T3510 {behind}; T3511 started {retried} times");
        println!("fuzz: rounds with a longer list {longer} times, with numbers where no timer is held {strange}");
        println!("fuzz: rounds refused for one reason: record {record} times, held and not running {held}, running and not held {runs}, held above 1 {above}, list {short}, by one number {one}");
        println!("fuzz: 1 before 12 {before} times in a round");
        let [none, later, just, before, far, now, furthest, moment, between, wrapped, lap, odd, free] = self.waits;
        println!("fuzz: waits of 600 s with none held {none} times, with later ends alone {later}, to an end {just}, with one 2^31 ms ahead {far}; 1 ms less {before}");
        println!("fuzz: waits of 0 at an end {now} times, with one as far past as can be {furthest}; of 1 ms {moment}, between {between}, across the wrap {wrapped}");
        println!("fuzz: waits for a lap's end {lap} times, for one held by another number than 1 {odd}, one not held passed over {free}; for slots 0 to 9 alone {:?}", self.woken);
    }
}
