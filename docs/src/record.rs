// The registration record of document 01 with the updates of request R-5, the faults of R-1, the
// waits of R-6, the edition of R-7, the counting on both accesses of R-14 and the places given up
// of R-9, and its seven events, updated in place; the eighth, R-8's import, is in card.rs.

use crate::message::{self, Accept, Message, Reject};

/// A network's octets, as sent.
pub type Network = [u8; 3];
/// A network and a three-octet area code.
pub type Area = [u8; 6];
pub type Guti = [u8; 10];

// Reply numbers.
pub const TAKEN: u8 = 0;
pub const RANGE: u8 = 1;
pub const IGNORED: u8 = 2;
/// A well-formed request that breaks the layout; no event is answered so.
pub const UNFIT: u8 = 3;
pub const FULL: u8 = 4;
pub const NO_CARD: u8 = 5;
pub const STATE: u8 = 6;
pub const CONCURRENT: u8 = 7;
pub const NETWORK_LISTED: u8 = 8;
pub const AREA_LISTED: u8 = 9;
pub const UNPROTECTED: u8 = 10;
pub const NOT_RUNNING: u8 = 11;
pub const SHORT: u8 = 12;
// 13 to 18 are the faults of message.rs.
/// A third level of requests in one another; no event is answered so.
pub const DEEP: u8 = 19;
/// T3346 runs on the access.
pub const WAITING: u8 = 20;

// States.
pub const NO_SUPI: u8 = 0;
pub const NORMAL: u8 = 1;
pub const LIMITED: u8 = 2;
pub const ATTEMPTING: u8 = 3;
pub const INITIATED: u8 = 4;
pub const REGISTERED: u8 = 5;
pub const SEARCH: u8 = 6;

// Places of the timers in a reply: the access is added to the first four.
pub const T3510: usize = 0;
pub const T3511: usize = 2;
pub const T3502: usize = 4;
pub const T3346: usize = 6;
pub const T3247: usize = 8;
pub const T3512: usize = 9;
/// How many places there are.
pub const TIMERS: usize = 10;

// Types of a registration, as in octet 4 of its request.
pub const INITIAL: u8 = 1;
pub const MOBILITY: u8 = 2;
pub const PERIODIC: u8 = 3;

/// Document 01's edition of the identity order, by source 001; 2 and 3 are by sources 002 and 003.
pub const FIRST_EDITION: u8 = 1;
const LAST_EDITION: u8 = 3;

const T3510_SECONDS: u32 = 15;
const T3511_SECONDS: u32 = 10;
const T3502_SECONDS: u16 = 720;
const T3512_SECONDS: u32 = 3240;
/// The low end of the draw for T3346, in seconds.
pub const LEAST_WAIT: u16 = 900;
const MOST_ATTEMPTS: u8 = 5;
/// The ngKSI of no key set.
pub const NO_KEY: u8 = 7;

/// A list held in place, oldest first.
#[derive(Clone, Copy)]
pub struct List<T, const N: usize> {
    items: [T; N],
    count: usize,
}

impl<T: Copy + Default, const N: usize> List<T, N> {
    pub fn new() -> Self {
        List { items: [T::default(); N], count: 0 }
    }

    /// The first `N` of `items`.
    pub fn of(items: &[T]) -> Self {
        let mut list = Self::new();
        list.set(items);
        list
    }

    /// Holds the first `N` of `items` and nothing else.
    pub fn set(&mut self, items: &[T]) {
        self.count = items.len().min(N);
        self.items[..self.count].copy_from_slice(&items[..self.count]);
    }

    pub fn push(&mut self, item: T) {
        self.items[self.count] = item;
        self.count += 1;
    }

    pub fn clear(&mut self) {
        self.count = 0;
    }

    /// Keeps the first `count`, which it has.
    pub fn truncate(&mut self, count: usize) {
        self.count = count;
    }

    pub fn full(&self) -> bool {
        self.count == N
    }

    fn drop_oldest(&mut self) {
        self.items.copy_within(1..self.count, 0);
        self.count -= 1;
    }

    fn retain(&mut self, keep: impl Fn(&T) -> bool) {
        let mut kept = 0;
        for place in 0..self.count {
            if keep(&self.items[place]) {
                self.items[kept] = self.items[place];
                kept += 1;
            }
        }
        self.count = kept;
    }
}

impl<T, const N: usize> std::ops::Deref for List<T, N> {
    type Target = [T];
    fn deref(&self) -> &[T] {
        &self.items[..self.count]
    }
}

impl<T, const N: usize> std::ops::DerefMut for List<T, N> {
    fn deref_mut(&mut self) -> &mut [T] {
        &mut self.items[..self.count]
    }
}

#[derive(Clone, Copy)]
pub struct Limits {
    pub card: u8,
    pub ban: u8,
    pub n1: u8,
}

/// A network as one number, since numbers compare faster.
#[derive(Clone, Copy, PartialEq, Debug, Default)]
pub struct Code(u32);

impl From<Network> for Code {
    fn from([first, second, third]: Network) -> Code {
        Code(u32::from_le_bytes([first, second, third, 0]))
    }
}

impl Code {
    /// The network of an area.
    pub fn of(area: &Area) -> Code {
        let [first, second, third, other, ..] = *area;
        Code(u32::from_le_bytes([first, second, third, other]) & 0xFF_FFFF)
    }

    /// Decimal digits; only the third MNC digit, the high half of octet 2, may be F.
    pub fn is_network(self) -> bool {
        const THIRD: u32 = 0xF000;
        let digits = if self.0 & THIRD == THIRD { self.0 & !THIRD } else { self.0 };
        // A digit is above 9 if its bit of 8 is set, and that of 4 or of 2.
        digits & (digits << 1 | digits << 2) & 0x88_8888 == 0
    }

    pub fn octets(self) -> Network {
        let [first, second, third, _] = self.0.to_le_bytes();
        [first, second, third]
    }
}

/// A network that was barred once on an access.
#[derive(Clone, Copy, Default)]
pub struct Entry {
    pub network: Code,
    pub ban: u8,
    pub n1: u8,
    pub forbidden: bool,
    pub n1_barred: bool,
}

#[derive(Clone, Copy, Default)]
pub struct Listed {
    pub area: Area,
    pub protected: bool,
}

/// When each entry was last marked, by how many marks there were until then; 0 for a place that
/// is free.
#[derive(Clone, Copy, Default)]
pub struct Order {
    latest: u64,
    marked: [u64; 16],
}

impl Order {
    /// The entry at a place was marked just now, whether or not its mark stood already.
    pub fn mark(&mut self, place: usize) {
        self.latest += 1;
        self.marked[place] = self.latest;
    }

    /// Of entries at these places, the one last marked longest ago first. Called by tests alone.
    #[allow(dead_code)]
    pub fn of(places: &[u8]) -> Order {
        let mut order = Order::default();
        for &place in places {
            order.mark(place.into());
        }
        order
    }

    /// The places again. Called by tests alone.
    #[allow(dead_code)]
    pub fn places(&self) -> Vec<u8> {
        let mut places: Vec<u8> =
            (0..16).filter(|&place| self.marked[place as usize] > 0).collect();
        places.sort_by_key(|&place| self.marked[place as usize]);
        places
    }
}

pub type Areas = List<Listed, 40>;
/// A bit for each of sixteen sessions, as sent: session 0 is bit 1 of the first octet.
pub type Sessions = [u8; 2];

#[derive(Clone, Copy)]
pub struct Access {
    pub state: u8,
    /// 1, 2 or 3 for 5U1, 5U2 or 5U3.
    pub status: u8,
    pub attempts: u8,
    pub t3510: bool,
    pub t3511: bool,
    pub t3502: bool,
    pub t3502_length: u16,
    pub t3346: bool,
    pub pending: Area,
    /// The pending registration's type, of meaning in state 4 only.
    pub regtype: u8,
    /// The pending registration's uplink data status and PDU session status.
    pub uplink: Sessions,
    pub sessions: Sessions,
    pub guti: Option<Guti>,
    pub last: Option<Area>,
    pub ksi: u8,
    pub equivalents: List<Network, 15>,
    pub cards: u8,
    pub entries: List<Entry, 16>,
    pub order: Order,
}

#[derive(Clone, Copy)]
pub struct Record {
    pub card: bool,
    pub home: Network,
    pub suci: List<u8, 64>,
    pub limits: Limits,
    pub capability: List<u8, 13>,
    pub security: List<u8, 8>,
    pub t3247: bool,
    pub t3512: bool,
    /// The time kept for T3512, 0 if the network wants no periodic updates.
    pub t3512_length: u32,
    /// T3512 ran out and no accept on access 0 came since.
    pub due: bool,
    pub roaming: Areas,
    pub regional: Areas,
    /// The edition of the identity order that the device is certified against.
    pub edition: u8,
    pub access: [Access; 2],
}

/// The seconds drawn for T3247 and T3346 with each message, whether it uses them or not.
#[derive(Clone, Copy)]
pub struct Drawn {
    pub t3247: u16,
    pub t3346: u16,
}

impl Drawn {
    fn fits(&self) -> bool {
        (1800..=3600).contains(&self.t3247) && (LEAST_WAIT..=1800).contains(&self.t3346)
    }
}

#[derive(Clone, Copy, PartialEq, Debug)]
pub enum Change {
    Left,
    Stopped,
    Started(u32),
}

/// What an event returns; a request names the access it is meant for.
#[derive(Clone, Copy, PartialEq, Debug)]
pub struct Reply {
    pub answer: u8,
    /// Of the octet at fault, for answers 13 to 18; else 0.
    pub offset: usize,
    pub timers: [Change; TIMERS],
    pub restart: Option<u8>,
    pub leave: Option<u8>,
    pub update: Option<u8>,
}

/// Where an event tells what it did beside its answer: in a reply, or, if only the answer is wanted,
/// in `()`, and then the telling costs nothing.
pub trait Told {
    fn note(&mut self, note: impl FnOnce(&mut Reply));

    /// Whether the timer ran.
    fn stop(&mut self, timer: usize, running: &mut bool) -> bool {
        let ran = std::mem::replace(running, false);
        if ran {
            self.note(|reply| reply.timers[timer] = Change::Stopped);
        }
        ran
    }

    fn start(&mut self, timer: usize, running: &mut bool, seconds: u32) {
        *running = true;
        self.note(|reply| reply.timers[timer] = Change::Started(seconds));
    }

    /// The access is to be registered again.
    fn restart(&mut self, access: u8) {
        self.note(|reply| reply.restart = Some(access));
    }
}

impl Told for () {
    fn note(&mut self, _: impl FnOnce(&mut Reply)) {}
}

impl Told for Reply {
    fn note(&mut self, note: impl FnOnce(&mut Reply)) {
        note(self);
    }
}

impl Reply {
    pub const fn of(answer: u8) -> Reply {
        Reply {
            answer,
            offset: 0,
            timers: [Change::Left; TIMERS],
            restart: None,
            leave: None,
            update: None,
        }
    }

    /// The reply of an event that tells in it and gives its answer.
    pub fn to(event: impl FnOnce(&mut Reply) -> u8) -> Reply {
        let mut reply = Reply::of(TAKEN);
        reply.answer = event(&mut reply);
        reply
    }
}

/// Whether a network's octets are one's.
pub fn is_network(code: &Network) -> bool {
    Code::from(*code).is_network()
}

/// Session 0 is reserved and never set.
fn are_sessions(octets: &Sessions) -> bool {
    octets[0] & 1 == 0
}

pub fn network_of(area: &Area) -> Network {
    [area[0], area[1], area[2]]
}

/// The test by which T3247 and a power cycle lift a mark: above 0 and below the limit, which is at
/// least 1.
fn lifts(counter: u8, limit: u8) -> bool {
    counter.wrapping_sub(1) < limit - 1
}

/// One more below the limit; a protected reject counts to the limit at once.
fn counted(counter: u8, limit: u8, protected: bool) -> u8 {
    if protected {
        limit
    } else if counter < limit {
        counter + 1
    } else {
        counter
    }
}

/// A listed area keeps its place, and a protected mark is never lowered.
fn list(areas: &mut Areas, area: Area, protected: bool) {
    if let Some(held) = areas.iter_mut().find(|held| held.area == area) {
        held.protected |= protected;
        return;
    }
    if areas.full() {
        areas.drop_oldest();
    }
    areas.push(Listed { area, protected });
}

#[inline(always)]
fn holds(areas: &Areas, area: &Area) -> bool {
    areas.iter().any(|held| held.area == *area)
}

impl Access {
    fn new() -> Access {
        Access {
            state: NO_SUPI,
            status: 2,
            attempts: 0,
            t3510: false,
            t3511: false,
            t3502: false,
            t3502_length: T3502_SECONDS,
            t3346: false,
            pending: [0; 6],
            regtype: INITIAL,
            uplink: [0; 2],
            sessions: [0; 2],
            guti: None,
            last: None,
            ksi: NO_KEY,
            equivalents: List::new(),
            cards: 0,
            entries: List::new(),
            order: Order::default(),
        }
    }

    /// The place of a network's entry. All sixteen are compared: that takes no branch for each.
    #[inline]
    fn find(&self, network: Code) -> Option<usize> {
        let mut equal = 0;
        for (place, entry) in self.entries.items.iter().enumerate() {
            equal |= u32::from(entry.network == network) << place;
        }
        // A free place may still have the network that it had.
        let held = equal & !(u32::MAX << self.entries.count);
        (held != 0).then_some(held.trailing_zeros() as usize % 16)
    }

    pub fn entry(&self, network: &Network) -> Option<&Entry> {
        self.find((*network).into()).map(|place| &self.entries.items[place])
    }

    fn entry_mut(&mut self, network: Code) -> Option<&mut Entry> {
        self.find(network).map(|place| &mut self.entries.items[place])
    }

    /// The place of the network's entry, taken into use if it has none; None if all are held.
    /// Whoever asks marks it.
    #[inline]
    pub fn claim(&mut self, network: Code) -> Option<usize> {
        let held = self.find(network);
        if held.is_some() || self.entries.full() {
            return held;
        }
        self.entries.push(Entry { network, ..Entry::default() });
        Some(self.entries.len() - 1)
    }

    /// Of the entries with neither mark the one last marked longest ago.
    fn leaver(&self) -> Option<usize> {
        let mut oldest = u64::MAX;
        let mut leaver = None;
        for (place, (entry, &marked)) in self.entries.iter().zip(&self.order.marked).enumerate() {
            let bare = !(entry.forbidden | entry.n1_barred);
            if bare & (marked < oldest) {
                (oldest, leaver) = (marked, Some(place));
            }
        }
        leaver
    }

    /// The network's entry for a reject that marks it. If none is free, another network gives up
    /// its place and is forgotten; None if all sixteen have a mark (document 02, R-9).
    fn seat(&mut self, network: Code) -> Option<&mut Entry> {
        let place = match self.claim(network) {
            Some(place) => place,
            None => {
                let place = self.leaver()?;
                self.entries[place] = Entry { network, ..Entry::default() };
                place
            }
        };
        self.order.mark(place);
        Some(&mut self.entries[place])
    }

    /// For each entry how many were last marked earlier; zeros behind them. Called by tests alone.
    #[allow(dead_code)]
    pub fn ranks(&self) -> [u8; 16] {
        let mut ranks = [0; 16];
        for (rank, place) in self.order.places().iter().enumerate() {
            ranks[*place as usize] = rank as u8;
        }
        ranks
    }

    /// An update is pending.
    fn updating(&self) -> bool {
        self.state == INITIATED && self.regtype != INITIAL
    }

    /// What the two-access rule asks of the other access.
    fn registered(&self) -> bool {
        self.state == REGISTERED || self.updating()
    }

    fn clear_identity(&mut self) {
        self.guti = None;
        self.last = None;
        self.ksi = NO_KEY;
    }

    /// 5U3, clear identity and the new state: what all rows share but 22's and the last two.
    fn barred(&mut self, state: u8) {
        self.status = 3;
        self.clear_identity();
        self.state = state;
    }

    /// 11, 73 away from home; false if it has no entry, and all sixteen are held and marked.
    fn ban_row(&mut self, a: usize, limit: u8, protected: bool) -> bool {
        let Some(entry) = self.seat(Code::of(&self.pending)) else { return false };
        entry.forbidden = true;
        entry.ban = counted(entry.ban, limit, protected);
        self.barred(if a == 0 { SEARCH } else { LIMITED });
        self.equivalents.clear();
        self.attempts = 0;
        true
    }

    /// 27, and 72 over access 1; false as for `ban_row`.
    fn n1_row(&mut self, limit: u8, protected: bool) -> bool {
        let Some(entry) = self.seat(Code::of(&self.pending)) else { return false };
        entry.n1_barred = true;
        entry.n1 = counted(entry.n1, limit, protected);
        self.barred(LIMITED);
        self.attempts = 0;
        true
    }

    /// T3510 out, once T3510 is stopped. An update falls back to the registration that
    /// stands, so the identity that goes with it stays.
    fn failed(&mut self, told: &mut impl Told, a: usize) {
        if self.attempts < MOST_ATTEMPTS {
            self.attempts += 1;
        }
        let last = self.attempts == MOST_ATTEMPTS;
        if self.updating() {
            self.status = 2;
            self.state = REGISTERED;
        } else {
            self.state = ATTEMPTING;
            if last {
                self.status = 2;
                self.clear_identity();
            }
        }
        if last {
            self.equivalents.clear();
            told.start(T3502 + a, &mut self.t3502, self.t3502_length.into());
        } else {
            told.start(T3511 + a, &mut self.t3511, T3511_SECONDS);
        }
    }

    /// 22 with a time to wait: the network bars nothing, so what is held stays.
    fn congested_row(&mut self, told: &mut impl Told, a: usize, seconds: u16) {
        self.attempts = 0;
        self.status = 2;
        self.state = if self.updating() { REGISTERED } else { ATTEMPTING };
        told.start(T3346 + a, &mut self.t3346, seconds.into());
    }

    /// State 4 for a registration that passed its checks.
    fn initiate(
        &mut self,
        told: &mut impl Told,
        a: usize,
        area: &Area,
        regtype: u8,
        statuses: [Sessions; 2],
    ) {
        self.state = INITIATED;
        self.pending = *area;
        self.regtype = regtype;
        [self.uplink, self.sessions] = statuses;
        told.start(T3510 + a, &mut self.t3510, T3510_SECONDS);
        told.stop(T3511 + a, &mut self.t3511);
        told.stop(T3502 + a, &mut self.t3502);
    }
}

impl Record {
    pub fn new(limits: Limits, capability: &[u8], security: &[u8]) -> Record {
        Record {
            card: false,
            home: [0; 3],
            suci: List::new(),
            limits,
            capability: List::of(capability),
            security: List::of(security),
            t3247: false,
            t3512: false,
            t3512_length: T3512_SECONDS,
            due: false,
            roaming: List::new(),
            regional: List::new(),
            edition: FIRST_EDITION,
            access: [Access::new(); 2],
        }
    }

    fn stop_all(&mut self, told: &mut impl Told) {
        for (a, access) in self.access.iter_mut().enumerate() {
            told.stop(T3510 + a, &mut access.t3510);
            told.stop(T3511 + a, &mut access.t3511);
            told.stop(T3502 + a, &mut access.t3502);
            told.stop(T3346 + a, &mut access.t3346);
        }
        told.stop(T3247, &mut self.t3247);
        told.stop(T3512, &mut self.t3512);
    }

    pub fn on_card(&mut self, told: &mut impl Told, edition: u8, home: Network, suci: &[u8]) -> u8 {
        let named = (FIRST_EDITION..=LAST_EDITION).contains(&edition);
        if !named || !is_network(&home) || suci.len() < 9 || suci.len() > 64 || suci[0] != 1 {
            return RANGE;
        }
        self.stop_all(told);
        self.card = true;
        self.home = home;
        self.suci.set(suci);
        self.t3512_length = T3512_SECONDS;
        self.due = false;
        self.roaming.clear();
        self.regional.clear();
        self.edition = edition;
        self.access = [Access { state: NORMAL, ..Access::new() }; 2];
        TAKEN
    }

    /// Checks 20, 7, 8 and 9, which a start and an update share: an answer, TAKEN if none holds.
    #[inline(always)]
    fn place(&self, a: usize, manual: bool, area: &Area) -> u8 {
        if self.access[a].t3346 {
            return WAITING;
        }
        let network = Code::of(area);
        let other = &self.access[1 - a];
        // In one comparison, since neither half alone can be foretold.
        let differs = u32::from(other.state ^ INITIATED) | (Code::of(&other.pending).0 ^ network.0);
        if differs == 0 {
            return CONCURRENT;
        }
        if let Some(place) = self.access[a].find(network) {
            let entry = &self.access[a].entries.items[place];
            if entry.n1_barred | (entry.forbidden & !manual) {
                return NETWORK_LISTED;
            }
        }
        if a == 0 && (holds(&self.roaming, area) || holds(&self.regional, area)) {
            return AREA_LISTED;
        }
        TAKEN
    }

    #[inline(always)]
    pub fn on_start(&mut self, told: &mut impl Told, access: u8, manual: u8, area: &Area) -> u8 {
        if access > 1 || manual > 1 || !Code::of(area).is_network() {
            return RANGE;
        }
        let a = access as usize;
        match self.access[a].state {
            NO_SUPI => return NO_CARD,
            INITIATED | REGISTERED => return STATE,
            _ => {}
        }
        let answer = self.place(a, manual == 1, area);
        if answer == TAKEN {
            self.access[a].initiate(told, a, area, INITIAL, [[0; 2]; 2]);
        }
        answer
    }

    /// A mobility or periodic update; `statuses` are uplink data status and PDU session status.
    #[inline(always)]
    pub fn on_update(
        &mut self,
        told: &mut impl Told,
        access: u8,
        regtype: u8,
        area: &Area,
        statuses: [Sessions; 2],
    ) -> u8 {
        let typed = matches!(regtype, MOBILITY | PERIODIC);
        if access > 1 || !typed || !Code::of(area).is_network() {
            return RANGE;
        }
        if !statuses.iter().all(are_sessions) {
            return RANGE;
        }
        let a = access as usize;
        // T3512 is access 0's, so a periodic update of access 1 is never due.
        let due = a == 0 && self.due;
        if self.access[a].state != REGISTERED || regtype == PERIODIC && !due {
            return STATE;
        }
        let answer = self.place(a, false, area);
        if answer == TAKEN {
            self.access[a].initiate(told, a, area, regtype, statuses);
            if a == 0 {
                told.stop(T3512, &mut self.t3512);
            }
        }
        answer
    }

    #[inline(always)]
    pub fn on_message(
        &mut self,
        told: &mut impl Told,
        access: u8,
        protected: u8,
        drawn: Drawn,
        octets: &[u8],
    ) -> u8 {
        if access > 1 || protected > 1 || !drawn.fits() {
            return RANGE;
        }
        let a = access as usize;
        if self.access[a].state != INITIATED {
            return STATE;
        }
        match message::read(octets) {
            Err(fault) => {
                told.note(|reply| reply.offset = fault.at);
                fault.number
            }
            Ok(Message::Accept(_)) if protected == 0 => UNPROTECTED,
            Ok(Message::Accept(accept)) => self.accept(told, a, &accept),
            Ok(Message::Reject(reject)) => self.reject(told, a, reject, protected == 1, drawn),
        }
    }

    #[inline(always)]
    fn accept(&mut self, told: &mut impl Told, a: usize, accept: &Accept) -> u8 {
        let this = &mut self.access[a];
        this.state = REGISTERED;
        this.status = 1;
        this.attempts = 0;
        told.stop(T3510 + a, &mut this.t3510);
        this.last = Some(this.pending);
        if let Some(guti) = accept.guti {
            this.guti = Some(*guti);
        }
        this.equivalents.clear();
        for triplet in accept.equivalents.chunks_exact(3).take(15) {
            this.equivalents.push([triplet[0], triplet[1], triplet[2]]);
        }
        this.t3502_length = accept.t3502.unwrap_or(T3502_SECONDS);
        let network = Code::of(&this.pending);
        if let Some(entry) = this.entry_mut(network) {
            entry.forbidden = false;
        }
        if a == 0 {
            self.begin_period(told, accept.t3512);
        }
        TAKEN
    }

    /// An accept on access 0: T3512 begins with the time given, else the one kept, if not zero.
    fn begin_period(&mut self, told: &mut impl Told, given: Option<u32>) {
        self.due = false;
        if let Some(seconds) = given {
            self.t3512_length = seconds;
        }
        if self.t3512_length > 0 {
            told.start(T3512, &mut self.t3512, self.t3512_length);
        }
    }

    #[inline(always)]
    fn reject(
        &mut self,
        told: &mut impl Told,
        a: usize,
        reject: Reject,
        protected: bool,
        drawn: Drawn,
    ) -> u8 {
        let cause = reject.cause;
        if matches!(cause, 3 | 6 | 7) && !protected && self.access[1 - a].registered() {
            told.note(|reply| {
                reply.leave = Some(a as u8);
                reply.update = Some(1 - a as u8);
            });
            return IGNORED;
        }
        if let Reject { cause: 22, t3346: Some(given) } = reject {
            // Anyone could have sent a time without protection.
            let seconds = if protected { given } else { drawn.t3346 };
            self.access[a].congested_row(told, a, seconds);
        } else if !self.row(told, a, cause, protected) {
            return FULL;
        }
        told.stop(T3510 + a, &mut self.access[a].t3510);
        let starts = matches!(cause, 3 | 6 | 7 | 11 | 12 | 13 | 15 | 27 | 72 | 73);
        if starts && !protected && !self.t3247 {
            told.start(T3247, &mut self.t3247, drawn.t3247.into());
        }
        TAKEN
    }

    /// The row of the table for a cause; false if it needs an entry and there is none to be had.
    #[inline(always)]
    fn row(&mut self, told: &mut impl Told, a: usize, cause: u8, protected: bool) -> bool {
        let this = &mut self.access[a];
        let home = network_of(&this.pending) == self.home;
        match cause {
            3 | 6 | 7 => self.card_row(a, protected),
            11 | 73 if !home => return this.ban_row(a, self.limits.ban, protected),
            11 | 73 if !protected => self.home_row(a),
            12 | 13 | 15 if a == 0 => self.area_row(cause, protected),
            27 => return self.n1_rows(a, protected),
            72 if a == 1 => return this.n1_row(self.limits.n1, protected),
            95 | 96 | 97 | 99 | 111 => {
                this.attempts = MOST_ATTEMPTS;
                this.failed(told, a);
            }
            _ => this.failed(told, a),
        }
        true
    }

    /// 3, 6, 7: the first three rows.
    fn card_row(&mut self, a: usize, protected: bool) {
        let this = &mut self.access[a];
        if protected || this.cards == self.limits.card {
            this.barred(NO_SUPI);
            this.equivalents.clear();
            if protected {
                self.access[0].cards = self.limits.card;
                self.access[1].cards = self.limits.card;
            }
            return;
        }
        this.barred(LIMITED);
        this.cards += 1;
        if a == 0 {
            this.equivalents.clear();
            this.attempts = 0;
            list(&mut self.roaming, this.pending, false);
        }
    }

    /// 11, 73 unprotected at home.
    fn home_row(&mut self, a: usize) {
        let this = &mut self.access[a];
        this.barred(LIMITED);
        this.equivalents.clear();
        this.attempts = 0;
        if a == 0 {
            list(&mut self.roaming, this.pending, false);
        }
    }

    /// 12, 13, 15 over access 0.
    fn area_row(&mut self, cause: u8, protected: bool) {
        let this = &mut self.access[0];
        this.barred(LIMITED);
        this.attempts = 0;
        if cause == 13 {
            this.equivalents.clear();
        }
        let areas = if cause == 12 { &mut self.regional } else { &mut self.roaming };
        list(areas, this.pending, protected);
    }

    /// 27; false as for `n1_row`. Protected, it also takes the network's N1 counter to the limit on
    /// the other access, if that has an entry, but sets no mark there (document 02, R-14), so that
    /// the order there stays.
    fn n1_rows(&mut self, a: usize, protected: bool) -> bool {
        let limit = self.limits.n1;
        let this = &mut self.access[a];
        let network = Code::of(&this.pending);
        let taken = this.n1_row(limit, protected);
        if taken && protected {
            if let Some(entry) = self.access[1 - a].entry_mut(network) {
                entry.n1 = limit;
            }
        }
        taken
    }

    /// Timer numbers as in the log: 1 T3510, 2 T3511, 3 T3502, 6 T3346; of access 0 alone 4 T3247
    /// and 5 T3512.
    #[inline(always)]
    pub fn on_timer(&mut self, told: &mut impl Told, number: u8, access: u8) -> u8 {
        let device = matches!(number, 4 | 5);
        if !(1..=6).contains(&number) || access > 1 || device && access != 0 {
            return RANGE;
        }
        let a = access as usize;
        let this = &mut self.access[a];
        match number {
            1 if told.stop(T3510 + a, &mut this.t3510) => this.failed(told, a),
            2 if told.stop(T3511 + a, &mut this.t3511) => told.restart(access),
            3 if told.stop(T3502 + a, &mut this.t3502) => {
                this.attempts = 0;
                told.restart(access);
            }
            4 if told.stop(T3247, &mut self.t3247) => self.lift(),
            5 if told.stop(T3512, &mut self.t3512) => self.due = true,
            6 if told.stop(T3346 + a, &mut this.t3346) => told.restart(access),
            _ => return NOT_RUNNING,
        }
        TAKEN
    }

    /// T3247 out.
    fn lift(&mut self) {
        let limits = self.limits;
        for access in &mut self.access {
            for entry in access.entries.iter_mut() {
                entry.forbidden &= !lifts(entry.ban, limits.ban);
                entry.n1_barred &= !lifts(entry.n1, limits.n1);
            }
        }
        self.roaming.retain(|held| held.protected);
        self.regional.retain(|held| held.protected);
    }

    pub fn on_power(&mut self, told: &mut impl Told) -> u8 {
        self.stop_all(told);
        self.roaming.clear();
        self.regional.clear();
        for access in &mut self.access {
            access.state = if self.card { NORMAL } else { NO_SUPI };
            access.attempts = 0;
            for entry in access.entries.iter_mut() {
                entry.n1_barred = false;
                entry.forbidden &= !lifts(entry.ban, self.limits.ban);
            }
        }
        TAKEN
    }

    pub fn on_key(&mut self, access: u8, set: u8) -> u8 {
        if access > 1 || set > 6 {
            return RANGE;
        }
        let this = &mut self.access[access as usize];
        if this.state != INITIATED {
            return STATE;
        }
        this.ksi = set;
        TAKEN
    }
}
