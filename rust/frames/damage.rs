//! Damage to a made text: scalars dropped, doubled or exchanged, and bytes that are no UTF-8.

use crate::chance::Chance;

pub(crate) fn scalars(chance: &mut Chance, text: &mut String, strange: &[char]) {
    let mut scalars: Vec<char> = text.chars().collect();

    for _ in 0..1 + chance.below(4) {
        if scalars.is_empty() {
            break;
        }

        let at = chance.below(scalars.len());

        match chance.below(6) {
            0 | 1 => _ = scalars.remove(at),
            2 => scalars.insert(at, scalars[at]),
            3 => {
                let other = chance.below(scalars.len());
                scalars.swap(at, other);
            }
            4 => scalars[at] = chance.pick(strange),
            _ => scalars.truncate(at),
        }
    }

    text.clear();
    text.extend(scalars);
}

/// Spoils one place so that the bytes are no longer well formed.
pub(crate) fn bytes(chance: &mut Chance, bytes: &mut Vec<u8>) {
    let bad = chance.pick(&[
        0x80, 0xbf, 0xc0, 0xc1, 0xc3, 0xe0, 0xe2, 0xed, 0xef, 0xf0, 0xf4, 0xf5, 0xff,
    ]);
    let at = chance.below(bytes.len() + 1);

    if at < bytes.len() && chance.one_in(2) {
        bytes[at] = bad;
    } else {
        bytes.insert(at, bad);
    }

    if std::str::from_utf8(bytes).is_ok() {
        bytes.push(0xff);
    }
}
