//! Studio takes (R11): the refusals and ties that the rules name, each with the answer that is due, and every 16-bit
//! sample.

use crate::report::{Check, Journal};
use crate::trials::takes::{floats, read};
use hall::Wave;

/// What a case is about, the chunks of its file, and the answer.
type Case<'a> = (&'a str, &'a [&'a [u8]], Wave);

/// All cases.
pub fn named_takes(journal: &mut Journal) -> Check {
    journal.begin();
    accepted_ones(journal)?;
    past_the_end(journal)?;
    no_format(journal)?;
    no_data(journal)?;
    formats_unsupported(journal)?;
    data_unsupported(journal)?;
    long_and_short(journal)?;
    every_sample(journal)?;
    every_kind_of_float(journal)?;
    odd_stretches(journal)
}

/// Reads the files of these cases.
fn play(journal: &mut Journal, cases: &[Case]) -> Check {
    for (name, chunks, wanted) in cases {
        one(journal, name, &file(chunks), *wanted)?;
    }
    Ok(())
}

/// The library, the plain reader and what is written here agree, wherever the file begins.
fn one(journal: &mut Journal, name: &str, file: &[u8], wanted: Wave) -> Check {
    for offset in 0..2 {
        let wave = read(journal, name, offset, file)?;
        journal.same("answer of the case", wave, wanted)?;
    }
    Ok(())
}

/// Twelve bytes, then these chunks.
fn file(chunks: &[&[u8]]) -> Vec<u8> {
    [b"RIFF\0\0\0\0WAVE", &chunks.concat()[..]].concat()
}

/// A chunk with no pad byte.
fn chunk(name: &[u8; 4], body: &[u8]) -> Vec<u8> {
    sized(name, body.len() as u32, body)
}

/// A chunk whose header says any size.
fn sized(name: &[u8; 4], size: u32, body: &[u8]) -> Vec<u8> {
    [name, &size.to_le_bytes()[..], body].concat()
}

/// A `fmt ` of 16 bytes, its rate 192,000. Byte rate and block align are wrong, which doesn't matter.
fn format(tag: u16, channels: u16, width: u16) -> Vec<u8> {
    let [t0, t1] = tag.to_le_bytes();
    let [c0, c1] = channels.to_le_bytes();
    let [w0, w1] = width.to_le_bytes();
    chunk(b"fmt ", &[t0, t1, c0, c1, 0x00, 0xee, 2, 0, 9, 9, 9, 9, 5, 0, w0, w1])
}

/// An accepted file's answer.
fn accepted(tag: u32, channels: u32, data: usize, data_len: usize) -> Wave {
    Wave {
        rate: 192_000,
        channels,
        tag,
        data,
        data_len,
        ..Wave::default()
    }
}

/// A refused file's answer.
fn refused(number: u32, place: usize) -> Wave {
    Wave {
        number,
        place,
        ..Wave::default()
    }
}

/// 0. Nothing behind the data counts, and of two formats the first.
fn accepted_ones(journal: &mut Journal) -> Check {
    let (mono, none, four) = (&format(1, 1, 16), &chunk(b"data", b""), &chunk(b"data", b"1234"));
    let (stereo, all, blocks) = (&format(3, 2, 32), &format(3, 16, 32), &chunk(b"data", &[7; 128]));
    let long = &chunk(b"fmt ", &[&mono[8..], &[3; 24]].concat());
    let (odd, list) = (&chunk(b"LIST", b"abc"), &chunk(b"LIST", b"abcd"));
    let (bad, short, past) = (&format(2, 0, 7), &chunk(b"fmt ", b""), &sized(b"LIST", 9, b""));
    play(
        journal,
        &[
            ("the smallest file", &[mono, none], accepted(1, 1, 44, 0)),
            ("sixteen channels", &[all, blocks], accepted(3, 16, 44, 128)),
            ("a format of 40 bytes", &[long, four], accepted(1, 1, 68, 4)),
            ("an odd chunk", &[odd, b"\0", mono, four], accepted(1, 1, 56, 4)),
            ("an even chunk", &[mono, list, four], accepted(1, 1, 56, 4)),
            ("a second format", &[mono, stereo, four], accepted(1, 1, 68, 4)),
            ("a bad second format", &[mono, bad, four], accepted(1, 1, 68, 4)),
            ("a short second format", &[mono, short, four], accepted(1, 1, 52, 4)),
            ("a second data", &[mono, none, four], accepted(1, 1, 44, 0)),
            ("a bad format behind", &[mono, none, bad], accepted(1, 1, 44, 0)),
            ("past the end behind", &[mono, none, past], accepted(1, 1, 44, 0)),
            ("four bytes behind", &[mono, none, b"LIST"], accepted(1, 1, 44, 0)),
        ],
    )
}

/// 3, whatever the chunk's name, and before 4 and 6 at one chunk. 8 and the size may come to more than 32 bits hold.
fn past_the_end(journal: &mut Journal) -> Check {
    let (mono, none) = (&format(1, 1, 16), &chunk(b"data", b""));
    let list = &sized(b"LIST", 7, b"123456");
    let (data, odd) = (&sized(b"data", 5, b"1234"), &sized(b"data", 3, b"12"));
    let bad = &[b"fmt ", &20_u32.to_le_bytes()[..], &format(2, 1, 16)[8..]].concat();
    let last = &sized(b"LIST", u32::MAX, b"");
    let wraps = &sized(b"LIST", 0xffff_fff8, b"12345678");
    let half = &sized(b"data", 0x8000_0000, b"1234");
    play(
        journal,
        &[
            ("a chunk past the end before the data", &[mono, list], refused(3, 36)),
            ("data past the end", &[mono, data], refused(3, 36)),
            ("3 with 4", &[data], refused(3, 12)),
            ("3 with 6 at a format", &[bad], refused(3, 12)),
            ("3 with 6 at the data", &[mono, odd], refused(3, 36)),
            ("a second format past the end", &[mono, bad], refused(3, 36)),
            ("the greatest size", &[mono, last, none], refused(3, 36)),
            ("a size that wraps to none", &[mono, wraps, none], refused(3, 36)),
            ("a size of 2^31", &[mono, half], refused(3, 36)),
        ],
    )
}

/// 4: at the first data, though a format is behind it.
fn no_format(journal: &mut Journal) -> Check {
    let (mono, none, list) = (&format(1, 1, 16), &chunk(b"data", b""), &chunk(b"LIST", b"ab"));
    let (upper, zero) = (&chunk(b"FMT ", &mono[8..]), &chunk(b"fmt\0", &mono[8..]));
    play(
        journal,
        &[
            ("data alone", &[none], refused(4, 12)),
            ("a format behind the data", &[list, none, mono], refused(4, 22)),
            ("FMT", &[upper, none], refused(4, 36)),
            ("fmt with no blank", &[zero, none], refused(4, 36)),
        ],
    )
}

/// 5: fewer than 8 bytes are left, or even less than none, where a pad byte is missing.
fn no_data(journal: &mut Journal) -> Check {
    let (mono, odd, upper) = (&format(1, 1, 16), &chunk(b"LIST", b"a"), &chunk(b"DATA", b"12"));
    play(
        journal,
        &[
            ("no chunk", &[], refused(5, 0)),
            ("seven bytes", &[b"data\0\0\0"], refused(5, 0)),
            ("a format alone", &[mono], refused(5, 0)),
            ("seven bytes behind a format", &[mono, b"data\0\0\0"], refused(5, 0)),
            ("a pad byte that is missing", &[mono, odd], refused(5, 0)),
            ("a pad byte and no more", &[mono, odd, b"\0"], refused(5, 0)),
            ("DATA", &[mono, upper], refused(5, 0)),
        ],
    )
}

/// 6 at the first format, where it is met: before a 3 or 5 that comes later.
fn formats_unsupported(journal: &mut Journal) -> Check {
    let (mono, none) = (&format(1, 1, 16), &chunk(b"data", b""));
    for (tag, channels, width) in [
        (0, 1, 16),
        (2, 1, 16),
        (0xfffe, 1, 32),
        (0x0101, 1, 16),
        (1, 1, 8),
        (1, 1, 24),
        (1, 1, 32),
        (3, 1, 16),
        (3, 1, 64),
        (1, 0, 16),
        (1, 17, 16),
        (3, 257, 32),
        (3, 65_535, 32),
    ] {
        let bad = &format(tag, channels, width);
        play(journal, &[("a format", &[bad, none], refused(6, 12))])?;
    }
    for length in 0..16 {
        let short = &chunk(b"fmt ", &mono[8..8 + length]);
        let pad = &vec![0; length % 2];
        play(journal, &[("a short format", &[short, pad, none], refused(6, 12))])?;
    }
    let (bad, past) = (&format(2, 1, 16), &sized(b"data", 9, b""));
    play(
        journal,
        &[
            ("a format before data past the end", &[bad, past], refused(6, 12)),
            ("a bad format and no data", &[bad], refused(6, 12)),
            ("a bad format before a good one", &[bad, mono, none], refused(6, 12)),
        ],
    )
}

/// 6 at data that isn't whole blocks, whatever the block align says.
fn data_unsupported(journal: &mut Journal) -> Check {
    for (tag, channels, width, block) in [(1, 1, 16, 2), (1, 3, 16, 6), (3, 1, 32, 4), (3, 16, 32, 64)] {
        let format = &format(tag, channels, width);
        for length in 0..2 * block + 1 {
            let data = &chunk(b"data", &vec![7; length]);
            let wanted = if length % block == 0 {
                accepted(tag.into(), channels.into(), 44, length)
            } else {
                refused(6, 36)
            };
            play(journal, &[("blocks", &[format, data], wanted)])?;
        }
    }
    Ok(())
}

/// 1, which comes before 2, and 2. 1 MiB is accepted.
fn long_and_short(journal: &mut Journal) -> Check {
    let whole = file(&[&format(1, 1, 16), &chunk(b"data", b"1234")]);
    let mut long = whole.clone();
    long.resize(1 << 20, 0);
    one(journal, "1 MiB", &long, accepted(1, 1, 44, 4))?;
    long.push(0);
    one(journal, "1 MiB and a byte", &long, refused(1, 0))?;
    long[0] = b'r';
    one(journal, "1 with 2", &long, refused(1, 0))?;
    for length in 0..12 {
        one(journal, "under 12 bytes", &whole[..length], refused(2, 0))?;
    }
    for byte in [0, 1, 2, 3, 8, 9, 10, 11] {
        let mut other = whole.clone();
        other[byte] ^= 0x20;
        one(journal, "another name", &other, refused(2, 0))?;
    }
    Ok(())
}

/// Every 16-bit sample, and times 32,768 it is the whole number again.
fn every_sample(journal: &mut Journal) -> Check {
    let data: Vec<u8> = (i16::MIN..=i16::MAX).flat_map(i16::to_le_bytes).collect();
    let mut out = vec![f32::NAN; 1 << 16];
    journal.call("every 16-bit sample");
    hall::wave_samples(&data, 1, &mut out);
    for (k, x) in (i16::MIN..=i16::MAX).zip(&out) {
        journal.same(format_args!("sample {k}"), x * 32_768.0, f32::from(k))?;
    }
    floats(journal, &data, &data, 1, 1 << 16)?;
    floats(journal, &data, &data[1..], 1, 1 << 16)
}

/// With tag 3 floats of every kind stay as they are, but for a NaN's payload.
fn every_kind_of_float(journal: &mut Journal) -> Check {
    const ZEROS_AND_SUBNORMALS: [u32; 5] = [0, 0x8000_0000, 1, 0x8000_0001, 0x807f_ffff];
    const FINITE: [u32; 4] = [0x0080_0000, 0xbf80_0000, 0x7f7f_ffff, 0xff7f_ffff];
    const OTHERS: [u32; 5] = [0x7f80_0000, 0xff80_0000, 0x7f80_0001, 0x7fc0_0000, 0xffff_ffff];
    let bits = [&ZEROS_AND_SUBNORMALS[..], &FINITE, &OTHERS].concat();
    let data: Vec<u8> = bits.iter().flat_map(|bits| bits.to_le_bytes()).collect();
    floats(journal, &data, &data, 3, bits.len())
}

/// Stretches that aren't whole samples, into slices that are shorter, as long and longer.
fn odd_stretches(journal: &mut Journal) -> Check {
    let data: Vec<u8> = (0..40).map(|k| 0x83 ^ (5 * k)).collect();
    for length in 0..14 {
        for tag in [0, 1, 2, 3, 0xfffe, 0x1_0001, u32::MAX] {
            for count in 0..9 {
                floats(journal, &data, &data[3..3 + length], tag, count)?;
            }
        }
    }
    Ok(())
}
