// The faults of a message by the sentences of document 02's R-1, all of them, and the one that is told.

/// Each element from a place on that is past the end or must be understood: its offset and number.
fn elements(msg: &[u8], from: usize) -> Vec<(usize, u8)> {
    let (mut at, mut all) = (from, vec![]);
    while at < msg.len() {
        let rest = &msg[at..];
        let size = match *rest {
            [0x80..=0xFF, ..] => 1,
            [0x70..=0x7F, high, low, ..] => 3 + u16::from_be_bytes([high, low]) as usize,
            [0x70..=0x7F, ..] => 3,
            [_, len, ..] => 2 + len as usize,
            _ => 2,
        };
        if size > rest.len() {
            all.push((at, 17));
        }
        if rest[0] < 0x10 {
            all.push((at, 18));
        }
        at += size;
    }
    all
}

/// "The lowest offset is told, at a tie the lower number": that offset and number, of a call that reads these types.
pub fn told(msg: &[u8], types: &[u8]) -> Option<(usize, u8)> {
    let wrong = |at: usize, right: &[u8], number: u8| msg.get(at).filter(|octet| !right.contains(octet)).map(|_| (at, number));
    let result = if let [_, _, 0x42, len, ..] = *msg { Some(len as usize) } else { None };
    let fixed = 4 + result.unwrap_or(0);
    let cut = (msg.len() < fixed).then_some((msg.len(), 13));
    let empty = (result == Some(0)).then_some((3, 13));
    let head = [wrong(0, &[0x7E], 14), wrong(1, &[0x00], 15), wrong(2, types, 16), cut, empty];
    head.into_iter().flatten().chain(elements(msg, fixed)).min()
}
