//! Damaged schedules.

use super::record::push_number;
use super::Random;

/// Where the numbers of an undamaged schedule start, and its end.
fn starts(bytes: &[u8]) -> Vec<usize> {
    let mut starts = vec![0];
    starts.extend(bytes.iter().enumerate().filter(|(_, byte)| **byte < 0x80).map(|(at, _)| at + 1));
    starts
}

/// The schedule with one number replaced by these bytes.
fn spliced(bytes: &[u8], from: usize, to: usize, number: &[u8]) -> Vec<u8> {
    [&bytes[..from], number, &bytes[to..]].concat()
}

/// A number padded with needless groups, or cut in its last group.
fn malformed(number: &[u8]) -> Vec<Vec<u8>> {
    let mut padded = number.to_vec();
    let mut forms = Vec::new();
    while padded.len() < 6 {
        *padded.last_mut().expect("a number has a byte") |= 0x80;
        forms.push(padded.clone());
        padded.push(0);
        forms.push(padded.clone());
    }
    forms
}

/// Five-group numbers at and above 2^32.
fn five_groups() -> Vec<Vec<u8>> {
    let mut forms: Vec<Vec<u8>> = [0x0f, 0x10, 0x1f, 0x7f, 0x80, 0x8f, 0xff]
        .into_iter()
        .flat_map(|top| [vec![0x80, 0x80, 0x80, 0x80, top], vec![0xff, 0xff, 0xff, 0xff, top]])
        .collect();
    for value in [1 << 32, (1 << 32) - 1, 1 << 28, (1 << 28) - 1, 1 << 35] {
        let mut bytes = Vec::new();
        push_number(&mut bytes, value);
        forms.push(bytes);
    }
    forms
}

/// Every bit flipped, every cut, bytes inserted and left out at every place.
pub fn by_byte(bytes: &[u8], random: &Random, mut put: impl FnMut(&[u8])) {
    for at in 0..bytes.len() {
        for bit in 0..8 {
            let mut damaged = bytes.to_vec();
            damaged[at] ^= 1 << bit;
            put(&damaged);
        }
        put(&bytes[..at]);
        put(&spliced(bytes, at, at + 1, &[]));
    }
    for at in 0..=bytes.len() {
        for byte in [0, 1, 0x7f, 0x80, 0xff, random.next() as u8] {
            put(&spliced(bytes, at, at, &[byte]));
        }
    }
    for length in [1, 2, 100] {
        put(&[bytes, &random.junk(length)].concat());
    }
}

/// Every number malformed, too large, replaced, left out or doubled; the file ending in it.
pub fn by_number(bytes: &[u8], random: &Random, mut put: impl FnMut(&[u8])) {
    for window in starts(bytes).windows(2) {
        let (from, to) = (window[0], window[1]);
        let number = &bytes[from..to];
        let random_number = random.next() >> random.within(32, 63);
        let mut replaced = Vec::new();
        push_number(&mut replaced, random_number);
        let mut forms = malformed(number);
        forms.extend(five_groups());
        forms.extend([replaced, number.repeat(2)]);
        for form in forms {
            put(&spliced(bytes, from, to, &form));
            put(&[&bytes[..from], &form].concat());
        }
    }
}

/// Counts around 500 and files around 60,000 bytes.
pub fn sizes(bytes: &[u8], random: &Random, mut put: impl FnMut(&[u8])) {
    let first = starts(bytes)[1];
    for count in [0, 1, 2, 499, 500, 501, 60_000, (1 << 32) - 1, 1 << 32] {
        let mut number = Vec::new();
        push_number(&mut number, count);
        put(&spliced(bytes, 0, first, &number));
        put(&number);
    }
    for length in [59_999, 60_000, 60_001, 60_002, 100_000] {
        let mut long = bytes.to_vec();
        long.extend(random.junk(length));
        long.truncate(length);
        put(&long);
        put(&vec![0; length]);
        put(&vec![0x80; length]);
    }
}
