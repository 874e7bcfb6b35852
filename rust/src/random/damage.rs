//! Slips of the hand and worse, in texts and in tables.

use super::Random;
use crate::entries::TableWords;
use crate::room;

/// A text with one to three slips. It may still be a good text.
pub fn damage_text(random: &mut Random, text: &[u8]) -> Vec<u8> {
    let mut text = text.to_vec();
    for _ in 0..=random.below(3) {
        text = slip(random, text);
    }
    text
}

fn slip(random: &mut Random, mut text: Vec<u8>) -> Vec<u8> {
    let at = random.below(text.len() + 1);
    match random.below(14) {
        0 if at < text.len() => text[at] ^= 1 << random.below(8),
        1 => text.truncate(at),
        2 => text.insert(at, random.pick(b"\n\t\r 0-+\0\x80\xffTDWS19")),
        3 if at < text.len() => drop(text.remove(at)),
        4 => text = swap_bytes(text, b'\t', b" ", random),
        5 => text = swap_bytes(text, b'\n', b"\r\n", random),
        6 => return edit_line(random, text, |random, fields| edit_field(random, fields)),
        7 => return edit_line(random, text, |random, fields| edit_field(random, fields)),
        8 => return edit_line(random, text, |_, fields| fields.push(b"1".to_vec())),
        9 => return edit_line(random, text, |_, fields| drop(fields.pop())),
        10 => return move_line(random, text),
        11 => return edit_line(random, text, blank_line),
        12 => text.extend_from_slice(random.pick(&[
            &b"\n"[..],
            b"S",
            b"S\t0\t1\t1\t1\t1\t1",
            b"\0\n",
        ])),
        _ => {
            let long = vec![b'7'; random.pick(&[25, 40, 400, 30_000, 33_000])];
            return edit_line(random, text, |random, fields| {
                let field = random.below(fields.len());
                fields[field] = long;
            });
        }
    }
    text
}

/// Each such byte, or only one, made another.
fn swap_bytes(text: Vec<u8>, from: u8, to: &[u8], random: &mut Random) -> Vec<u8> {
    let only = random.chance(50).then(|| random.below(text.len() + 1));
    let mut swapped = Vec::new();
    for (at, &byte) in text.iter().enumerate() {
        if byte == from && only.is_none_or(|only| only == at) {
            swapped.extend_from_slice(to);
        } else {
            swapped.push(byte);
        }
    }
    swapped
}

fn edit_line(
    random: &mut Random,
    text: Vec<u8>,
    edit: impl FnOnce(&mut Random, &mut Vec<Vec<u8>>),
) -> Vec<u8> {
    let mut lines: Vec<Vec<u8>> = text.split(|&byte| byte == b'\n').map(<[u8]>::to_vec).collect();
    let line = random.below(lines.len());
    let mut fields: Vec<Vec<u8>> =
        lines[line].split(|&byte| byte == b'\t').map(<[u8]>::to_vec).collect();
    edit(random, &mut fields);
    lines[line] = fields.join(&b'\t');
    lines.join(&b'\n')
}

fn edit_field(random: &mut Random, fields: &mut [Vec<u8>]) {
    let values: [&[u8]; 26] = [
        b"",
        b"0",
        b"1",
        b"2",
        b"3",
        b"255",
        b"256",
        b"100000",
        b"100001",
        b"1000000000",
        b"1000000001",
        b"1000000000000",
        b"1000000000001",
        b"-1000000000000",
        b"-1000000000001",
        b"-0",
        b"-1",
        b"-",
        b"+5",
        b"007",
        b"-05",
        b"4294967296",
        b"18446744073709551616",
        b"1e3",
        b"T",
        b" 1",
    ];
    let field = random.below(fields.len());
    fields[field] = random.pick(&values).to_vec();
}

fn blank_line(_: &mut Random, fields: &mut Vec<Vec<u8>>) {
    fields.insert(0, b"\n".to_vec());
}

fn move_line(random: &mut Random, text: Vec<u8>) -> Vec<u8> {
    let mut lines: Vec<&[u8]> = text.split(|&byte| byte == b'\n').collect();
    let line = lines.remove(random.below(lines.len()));
    for _ in 0..random.below(3) {
        lines.insert(random.below(lines.len() + 1), line);
    }
    lines.join(&b'\n')
}

/// The lengths at which areas are lent; each may be under, at or over its room.
#[derive(Clone, Copy, Debug)]
pub struct Lengths {
    pub types: usize,
    pub rows: usize,
    pub due: usize,
    pub placement: usize,
    pub list: usize,
    pub work: usize,
}

impl Lengths {
    pub const ROOM: Lengths = Lengths {
        types: room::TYPES * room::TYPE_WORDS,
        rows: room::ROWS * room::ROW_WORDS,
        due: room::ROWS,
        placement: room::PLACEMENT,
        list: room::LIST,
        work: room::WORK,
    };

    /// Over the room everywhere, or now and then under it somewhere.
    pub fn any(random: &mut Random) -> Lengths {
        let mut lengths = Lengths::ROOM;
        let under = random.chance(10).then(|| random.below(6));
        let areas = [
            &mut lengths.types,
            &mut lengths.rows,
            &mut lengths.due,
            &mut lengths.placement,
            &mut lengths.list,
            &mut lengths.work,
        ];
        for (index, length) in areas.into_iter().enumerate() {
            if under == Some(index) {
                *length -= random.pick(&[1, 1, 2, *length]);
            } else if random.chance(40) {
                *length += random.below(9);
            }
        }
        lengths
    }
}

/// Tables with one to three words or counts changed. They may still be good tables.
pub fn damage_tables(random: &mut Random, tables: &mut TableWords) {
    let values =
        [0, 1, 2, 3, 4, 63, 255, 256, 100_000, 100_001, 1_000_000_000, 1_000_000_001, u32::MAX];
    let times =
        [0, 1, -1, room::DUE, -room::DUE, room::DUE + 1, -room::DUE - 1, i64::MIN, i64::MAX];
    let counts = [0, 1, 2, 3, 4, 5, 6, 255, 256, 257, 258, 1_000_000, usize::MAX];
    for _ in 0..=random.below(3) {
        // Most damage goes where the net has entries; the rest must not matter.
        let rows =
            if random.chance(90) { tables.row_count.clamp(1, room::ROWS) } else { room::ROWS };
        match random.below(10) {
            0 => tables.types[random.below(room::TYPES * room::TYPE_WORDS)] = random.pick(&values),
            1 => tables.due[random.below(rows)] = random.pick(&times),
            2 if random.chance(30) => tables.type_count = random.pick(&counts),
            3 if random.chance(30) => tables.row_count = random.pick(&counts),
            _ => tables.rows[random.below(rows * room::ROW_WORDS)] = random.pick(&values),
        }
    }
}
