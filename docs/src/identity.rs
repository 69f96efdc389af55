// Which identity a request opens with: document 01's order, and before it, in two of request R-7's
// editions, the GUTI that is mapped from a 4G-GUTI.

use crate::record::{network_of, Guti, Record, INITIAL};

/// What the device has from S1 mode, lent by the caller at each write; by default nothing.
#[derive(Clone, Copy, PartialEq, Debug, Default)]
pub struct S1 {
    /// Was registered in S1 mode.
    pub registered: bool,
    /// Was told that interworking without N26 is not supported.
    pub n26: bool,
    /// Holds an EPS security context.
    pub context: bool,
    /// Holds a valid 4G-GUTI.
    pub valid: bool,
    /// The 4G-GUTI is a native one.
    pub native: bool,
    /// The 4G-GUTI: network (3 octets), MME group (2), MME code (1), M-TMSI (4).
    pub guti: Guti,
}

impl S1 {
    /// Whether an initial registration of this edition opens with the mapped GUTI.
    fn counts(&self, edition: u8) -> bool {
        let held = self.registered && self.n26 && self.context && self.valid;
        match edition {
            2 => held,
            3 => held && self.native,
            _ => false,
        }
    }
}

/// A 5G-GUTI as it is sent.
pub fn sent(guti: &Guti) -> [u8; 11] {
    let mut octets = [0xF2; 11];
    octets[1..].copy_from_slice(guti);
    octets
}

/// The 5G-GUTI of a 4G-GUTI by TS 23.003: MME group and code, 24 bits, become AMF region (8 bits),
/// set (10) and pointer (6). Network and TMSI stay.
pub fn mapped(guti: &Guti) -> Guti {
    let [n1, n2, n3, g1, g2, code, t1, t2, t3, t4] = *guti;
    let group = u16::from_be_bytes([g1, g2]);
    let region = (group >> 8) as u8;
    let set = (group & 0xFF) << 2 | u16::from(code >> 6);
    let pointer = code & 0x3F;
    // The set is sent high bits first, and its last two stand before the pointer.
    let [high, low] = (set << 6 | u16::from(pointer)).to_be_bytes();
    [n1, n2, n3, region, high, low, t1, t2, t3, t4]
}

/// The GUTI that a request of access `a` opens with before document 01's order, if it does.
pub fn from_s1(record: &Record, a: usize, s1: &S1) -> Option<Guti> {
    let initial = record.access[a].regtype == INITIAL;
    (initial && s1.counts(record.edition)).then(|| mapped(&s1.guti))
}

/// Document 01's 5G-GUTI: one of the pending network, else of an equivalent one, else any; within
/// each, this access's first.
pub fn best(record: &Record, a: usize) -> Option<Guti> {
    let this = &record.access[a];
    let pending = network_of(&this.pending);
    let held = [a, 1 - a].map(|b| record.access[b].guti);
    let pick =
        |fits: &dyn Fn(&[u8]) -> bool| held.iter().flatten().copied().find(|guti| fits(&guti[..3]));
    pick(&|network| network == pending)
        .or_else(|| pick(&|network| this.equivalents.iter().any(|equal| network == equal)))
        .or_else(|| pick(&|_| true))
}
