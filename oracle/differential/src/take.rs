//! Studio takes as recorders write them, of any shape: chunks in a row.

use crate::dice::Dice;

/// A chunk as it will be written. The size is what its header will say, be it true or not.
#[derive(Clone)]
pub struct Chunk {
    pub name: [u8; 4],
    pub size: u32,
    pub body: Vec<u8>,
    pub pad: Vec<u8>,
}

impl Chunk {
    /// A chunk with its true size, and behind an odd one a pad byte of any value.
    pub fn new(dice: &mut Dice, name: &[u8; 4], body: Vec<u8>) -> Self {
        Chunk {
            name: *name,
            size: body.len() as u32,
            pad: bytes(dice, body.len() % 2),
            body,
        }
    }

    fn written(&self) -> Vec<u8> {
        [&self.name[..], &self.size.to_le_bytes(), &self.body, &self.pad].concat()
    }
}

/// A file of these chunks. Its RIFF size is right or anything.
pub fn file(dice: &mut Dice, chunks: &[Chunk]) -> Vec<u8> {
    let chunks = chunks.iter().map(Chunk::written).collect::<Vec<_>>().concat();
    let any = dice.word() as u32;
    let size = dice.pick(&[chunks.len() as u32 + 4, 0, u32::MAX, any]);
    [b"RIFF", &size.to_le_bytes()[..], b"WAVE", &chunks].concat()
}

/// The chunks of a take that is accepted: other chunks before and behind, now and then a second `fmt ` and a second
/// `data`.
pub fn whole(dice: &mut Dice) -> Vec<Chunk> {
    let (tag, width) = dice.pick(&[(1, 16), (3, 32)]);
    let channels = some_channels(dice);
    let mut chunks = others(dice);
    let body = format(dice, tag, channels, width);
    chunks.push(Chunk::new(dice, b"fmt ", body));
    chunks.extend(others(dice));
    if dice.once_in(4) {
        chunks.push(second_format(dice));
        chunks.extend(others(dice));
    }
    let body = data(dice, usize::from(channels * width / 8));
    chunks.push(Chunk::new(dice, b"data", body));
    chunks.extend(others(dice));
    if dice.once_in(6) {
        chunks.push(second_format(dice));
    }
    if dice.once_in(6) {
        let length = dice.below(20);
        let body = samples(dice, length);
        chunks.push(Chunk::new(dice, b"data", body));
    }
    chunks
}

/// 1 to 16 channels, mostly one, two or the most.
fn some_channels(dice: &mut Dice) -> u16 {
    let any = dice.between(1, 16) as u16;
    dice.pick(&[1, 2, any, 16])
}

/// A format's body of 16, 18 or 40 bytes. Byte rate and block align are right or anything.
fn format(dice: &mut Dice, tag: u16, channels: u16, width: u16) -> Vec<u8> {
    let any = dice.word() as u32;
    let rate = dice.pick(&[8_000, 44_100, 48_000, 0, u32::MAX, any]);
    let align = dice.pick(&[channels.wrapping_mul(width / 8), 0, any as u16]);
    let byte_rate = dice.pick(&[rate.wrapping_mul(align.into()), !any]);
    let mut body = [tag, channels].map(u16::to_le_bytes).concat();
    body.extend([rate, byte_rate].map(u32::to_le_bytes).concat());
    body.extend([align, width].map(u16::to_le_bytes).concat());
    let extension = dice.pick(&[0, 0, 2, 24]);
    body.extend(bytes(dice, extension));
    body
}

/// A `fmt ` that is passed over: one that would be accepted, or one that wouldn't.
fn second_format(dice: &mut Dice) -> Chunk {
    let (tag, width) = dice.pick(&[(1, 16), (3, 32), (1, 16), (3, 32), (2, 16), (1, 24), (0xfffe, 32)]);
    let some = some_channels(dice);
    let channels = dice.pick(&[some, some, some, 0, 17]);
    let mut body = format(dice, tag, channels, width);
    if dice.once_in(4) {
        body.truncate(dice.below(16));
    }
    Chunk::new(dice, b"fmt ", body)
}

/// A data chunk's body of whole blocks: none, a few, or now and then nearly a mebibyte of them.
fn data(dice: &mut Dice, block: usize) -> Vec<u8> {
    let some = dice.below(40);
    let blocks = dice.pick(&[0, 1, 2, some, some]);
    if dice.once_in(80) {
        let pattern = samples(dice, 1_024);
        return pattern.into_iter().cycle().take(1_040_000 / block * block).collect();
    }
    samples(dice, blocks * block)
}

/// Bytes that are any 16-bit samples, and floats of every kind.
fn samples(dice: &mut Dice, length: usize) -> Vec<u8> {
    let mut bytes = Vec::with_capacity(length + 4);
    while bytes.len() < length {
        let float = match dice.below(5) {
            0 => dice.any_float(),
            1 => dice.bad_float(),
            2 => dice.noise(),
            3 => f32::from_bits(dice.word() as u32 & 0x807f_ffff),
            _ => -0.0,
        };
        bytes.extend(float.to_le_bytes());
    }
    bytes.truncate(length);
    bytes
}

/// Up to two chunks that are passed over.
fn others(dice: &mut Dice) -> Vec<Chunk> {
    (0..dice.below(3)).map(|_| other(dice)).collect()
}

/// A chunk that is passed over. What stands in it may look like a chunk, and its name like another.
fn other(dice: &mut Dice) -> Chunk {
    const NAMES: [&[u8; 4]; 10] = [
        b"LIST", b"fact", b"JUNK", b"bext", b"cue ", b"id3 ", b"FMT ", b"fmt\0", b"Data", b"RIFF",
    ];
    let length = dice.below(24);
    let mut body = bytes(dice, length);
    if dice.once_in(3) {
        let (name, before) = (dice.pick(&[b"fmt ", b"data"]), dice.below(2));
        let inner = Chunk::new(dice, name, body).written();
        body = [bytes(dice, before), inner].concat();
    }
    let name = dice.pick(&NAMES);
    Chunk::new(dice, name, body)
}

/// Any bytes.
pub fn bytes(dice: &mut Dice, count: usize) -> Vec<u8> {
    (0..count).map(|_| dice.word() as u8).collect()
}
