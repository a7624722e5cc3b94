//! Bytes that are no book, or a book only by their header.

use reference::book::{length, user_length, TRADE_LENGTH};
use reference::version::header_length;

use crate::accepted::miscounted;
use crate::damage::{counts, put, version_of};
use crate::random::Random;

/// Bytes that are no book, or a book only by its header.
pub fn raw(random: &mut Random, accepted: &[u8]) -> Vec<u8> {
    let length = random.pick(&[
        0, 1, 3, 31, 32, 33, 39, 40, 41, 87, 88, 89, 96, 108, 164, 600, 8736, 8737, 8744, 8745,
        9385, 9511, 9512, 9513,
    ]);
    match random.below(12) {
        0 => Vec::new(),
        1 => vec![0; length],
        2 => vec![0xFF; length],
        3 => random.bytes(length),
        4 => [b"GDB".to_vec(), random.bytes(length)].concat(),
        5 => [accepted[..5].to_vec(), random.bytes(length)].concat(),
        6 => huge_counts(random, accepted),
        7 => shifted_counts(accepted),
        8 => random_records(random, accepted),
        9 | 10 => miscounted(random).to_bytes(),
        _ => any_byte(random, accepted),
    }
}

/// Counts up to 255 users and 65,535 trades, sometimes of the length they say.
fn huge_counts(random: &mut Random, accepted: &[u8]) -> Vec<u8> {
    let mut bytes = accepted.to_vec();
    bytes[5] = random.pick(&[0, 64, 65, 255]);
    let trades: u16 = random.pick(&[0, 256, 257, 300, u16::MAX]);
    put(&mut bytes, 6, &trades.to_le_bytes());
    if trades < 1_000 && random.one_in(2) {
        let (users, trades) = counts(&bytes);
        bytes.resize(length(version_of(accepted), users, trades), 0);
    }
    bytes
}

/// Five users more and fourteen trades fewer, in version 3 seventeen, or the other
/// way round, have the same length.
fn shifted_counts(accepted: &[u8]) -> Vec<u8> {
    let mut bytes = accepted.to_vec();
    let (users, trades) = counts(&bytes);
    let fewer = 5 * user_length(version_of(&bytes)) / TRADE_LENGTH;
    let (users, trades) = if trades >= fewer && users + 5 <= 64 {
        (users + 5, trades - fewer)
    } else if users > 5 {
        (users - 5, trades + fewer)
    } else {
        (users, trades)
    };
    bytes[5] = users.to_le_bytes()[0];
    put(&mut bytes, 6, &trades.to_le_bytes()[..2]);
    bytes
}

/// An accepted header with random bytes for the records.
fn random_records(random: &mut Random, accepted: &[u8]) -> Vec<u8> {
    let (header, records) = accepted.split_at(header_length(version_of(accepted)));
    [header.to_vec(), random.bytes(records.len())].concat()
}

/// One byte anywhere with any value.
fn any_byte(random: &mut Random, accepted: &[u8]) -> Vec<u8> {
    let mut bytes = accepted.to_vec();
    let place = random.below(bytes.len());
    bytes[place] = random.byte();
    bytes
}
