//! Damaged takes: whole ones with none, one or more things made wrong, among the chunks and then among the bytes.

use crate::dice::Dice;
use crate::take::{self, Chunk};
use crate::take_reader::MOST_BYTES;

/// A file that may be damaged. How often each thing is made wrong was weighed so that every answer comes up often.
pub fn damaged_file(dice: &mut Dice) -> Vec<u8> {
    let mut chunks = take::whole(dice);
    for _ in 0..dice.pick(&[0, 1, 1, 2, 2, 3]) {
        spoil_chunks(dice, &mut chunks);
    }
    let mut file = take::file(dice, &chunks);
    for _ in 0..dice.pick(&[0, 0, 0, 1, 1, 2]) {
        spoil_bytes(dice, &mut file);
    }
    if dice.once_in(14) {
        fill_up(dice, &mut file);
    }
    file
}

/// Makes one thing wrong among the chunks. Every other time it is at the `fmt ` or the `data`.
fn spoil_chunks(dice: &mut Dice, chunks: &mut Vec<Chunk>) {
    if chunks.is_empty() {
        return;
    }
    let (any, other) = (dice.below(chunks.len()), dice.below(chunks.len()));
    let name = dice.pick(&[b"fmt ", b"data", b"\0\0\0\0", b"\0\0\0\0"]);
    let at = chunks.iter().position(|chunk| chunk.name == *name).unwrap_or(any);
    match dice.below(11) {
        0 | 1 => chunks[at].size = wrong_size(dice, chunks[at].size),
        2 => spoil_name(dice, &mut chunks[at].name),
        3 => chunks.swap(at, other),
        4 => drop(chunks.remove(at)),
        5 => chunks.insert(other, chunks[at].clone()),
        6 => spoil_pad(dice, &mut chunks[at].pad),
        7 => end_at(dice, chunks, at),
        8 => spoil_length(dice, &mut chunks[at]),
        _ => spoil_format(dice, chunks),
    }
}

/// Another size, with which 8 bytes of header may come to more than 32 bits hold.
fn wrong_size(dice: &mut Dice, size: u32) -> u32 {
    let (wrapping, few, any) = (
        0xffff_fff0 | dice.below(16) as u32,
        dice.below(64) as u32,
        dice.word() as u32,
    );
    let near = [
        size | 1,
        size.wrapping_add(1),
        size.wrapping_sub(1),
        size.wrapping_add(8),
    ];
    let huge = [0x7fff_ffff, 0x8000_0000, u32::MAX, wrapping];
    let kind = dice.pick(&[near, huge, [0, 1, few, any]]);
    dice.pick(&kind)
}

/// A name that differs in one byte: in its case, or in anything.
fn spoil_name(dice: &mut Dice, name: &mut [u8]) {
    let (byte, any) = (&mut name[dice.below(4)], dice.word() as u8);
    *byte = dice.pick(&[*byte ^ 0x20, *byte ^ 1, 0, any]);
}

/// No pad byte where one was, and one where none was.
fn spoil_pad(dice: &mut Dice, pad: &mut Vec<u8>) {
    *pad = take::bytes(dice, 1 - pad.len().min(1));
}

/// No chunk behind this one, and perhaps no pad byte.
fn end_at(dice: &mut Dice, chunks: &mut Vec<Chunk>, at: usize) {
    chunks.truncate(at + 1);
    if dice.once_in(2) {
        chunks[at].pad.clear();
    }
}

/// A body that is a few bytes longer or shorter, or nearly empty, with its true size. So data isn't whole blocks.
fn spoil_length(dice: &mut Dice, chunk: &mut Chunk) {
    let (length, by, few) = (chunk.body.len(), dice.between(1, 4), dice.below(19));
    let length = dice.pick(&[length + by, length.saturating_sub(by), few]);
    chunk.body.resize(length, 0x64);
    *chunk = Chunk::new(dice, &chunk.name, std::mem::take(&mut chunk.body));
}

/// The first `fmt ` with another tag, width or channels, or cut to a few bytes.
fn spoil_format(dice: &mut Dice, chunks: &mut [Chunk]) {
    let Some(format) = chunks.iter_mut().find(|chunk| chunk.name == *b"fmt ") else {
        return;
    };
    let (at, value) = match dice.below(4) {
        0 => (0, dice.pick(&[0, 1, 2, 3, 0xfffe, 0x0101, 0x0103])),
        1 => (2, dice.pick(&[0, 1, 16, 17, 0x0101, 65_535])),
        2 => (14, dice.pick(&[8, 16, 24, 32, 64, 0x0110])),
        _ => {
            let length = dice.below(19);
            format.body.truncate(dice.pick(&[length, 14, 15]));
            *format = Chunk::new(dice, b"fmt ", std::mem::take(&mut format.body));
            return;
        }
    };
    if let Some(field) = format.body.get_mut(at..at + 2) {
        field.copy_from_slice(&u16::to_le_bytes(value));
    }
}

/// Makes one thing wrong among the bytes. Every other time it is near the front, where the names and sizes are.
fn spoil_bytes(dice: &mut Dice, file: &mut Vec<u8>) {
    if file.is_empty() {
        return;
    }
    let (front, any) = (dice.below(file.len().min(64)), dice.below(file.len()));
    let at = dice.pick(&[front, any]);
    match dice.below(8) {
        0 => file[at] ^= 1 << dice.below(8),
        1 => file[at] = dice.word() as u8,
        2 | 3 => file.truncate(at),
        4 => file.truncate(file.len() - dice.below(file.len().min(24))),
        5 => spoil_head(dice, file),
        _ => {
            let count = dice.below(40);
            file.extend(take::bytes(dice, count));
        }
    }
}

/// A file of hardly more than twelve bytes or fewer, or with another name than RIFF or WAVE.
fn spoil_head(dice: &mut Dice, file: &mut Vec<u8>) {
    let at = dice.pick(&[0, 8]);
    match file.get_mut(at..at + 4) {
        Some(name) if !dice.once_in(4) => spoil_name(dice, name),
        _ => file.truncate(dice.below(24)),
    }
}

/// Makes the file as long as may be read, or one byte longer or shorter, or much longer: by a chunk before all others,
/// so that these lie at its end, or by bytes behind them.
fn fill_up(dice: &mut Dice, file: &mut Vec<u8>) {
    let much = MOST_BYTES + dice.below(MOST_BYTES);
    let length = dice.pick(&[MOST_BYTES - 1, MOST_BYTES, MOST_BYTES + 1, MOST_BYTES + 1, much]);
    let room = length.saturating_sub(file.len() + 8);
    if file.len() >= 12 && dice.once_in(2) {
        let size = room as u32 & !1;
        let header = [*b"JUNK", size.to_le_bytes()].concat();
        let body = std::iter::repeat_n(0x64, size as usize);
        file.splice(12..12, header.into_iter().chain(body));
    }
    file.resize(length, 0x64);
}
