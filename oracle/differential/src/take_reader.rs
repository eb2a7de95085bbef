//! A reader of studio takes in plain Rust, written from the request alone: ../shared/docs/02-change-requests.md [2], as
//! ../shared/REQUESTS.md settles it. It is what the library is compared with, since the published Rust reads none.

use hall::Wave;

/// At most 1 MiB is read.
pub const MOST_BYTES: usize = 1 << 20;

/// Why a file is refused: its number, and the place of the chunk or 0.
type Refusal = (u32, usize);

/// A format that can be read.
struct Format {
    rate: u32,
    channels: u16,
    tag: u16,
}

/// What stands in a file.
pub fn read(file: &[u8]) -> Wave {
    walked(file).unwrap_or_else(|(number, place)| Wave {
        number,
        place,
        ..Wave::default()
    })
}

fn walked(file: &[u8]) -> Result<Wave, Refusal> {
    // 1: too long, whatever stands in it.
    if file.len() > MOST_BYTES {
        return Err((1, 0));
    }
    // 2: under 12 bytes, or other names. The RIFF size between them isn't judged.
    if file.len() < 12 || file[..4] != *b"RIFF" || file[8..12] != *b"WAVE" {
        return Err((2, 0));
    }
    let mut format = None;
    let mut at = 12;
    while let Some((header, rest)) = header_at(file, at) {
        let [n, a, m, e, size @ ..] = header;
        let size = u32::from_le_bytes(*size) as usize;
        // 3: the chunk runs past the end, whatever its name.
        let body = rest.get(..size).ok_or((3, at))?;
        match &[*n, *a, *m, *e] {
            // 4: the first data ends the walk, and no format came before it.
            b"data" => return data(format.ok_or((4, at))?, at, body),
            // 6: the first format is judged where it is met. A later one is passed over.
            b"fmt " if format.is_none() => format = Some(supported(body).ok_or((6, at))?),
            // Any other chunk is passed over.
            _ => (),
        }
        // A body of odd size has a pad byte behind it.
        at += 8 + size + size % 2;
    }
    // 5: fewer than 8 bytes are left. It may be less than none, where a pad byte is missing at the end.
    Err((5, 0))
}

/// A chunk's header and all that is behind it, if there are 8 bytes for one.
fn header_at(file: &[u8], at: usize) -> Option<(&[u8; 8], &[u8])> {
    file.get(at..)?.split_first_chunk()
}

/// The format in a body of at least 16 bytes: 16 bits with tag 1 or 32 with tag 3, and 1 to 16 channels. Nothing else
/// in it is judged.
fn supported(body: &[u8]) -> Option<Format> {
    let fields: &[u8; 16] = body.first_chunk()?;
    let two_bytes = |at: usize| u16::from_le_bytes([fields[at], fields[at + 1]]);
    let (tag, channels, width) = (two_bytes(0), two_bytes(2), two_bytes(14));
    let rate = u32::from_le_bytes([fields[4], fields[5], fields[6], fields[7]]);
    let known = matches!((tag, width), (1, 16) | (3, 32));
    (known && (1..=16).contains(&channels)).then_some(Format { rate, channels, tag })
}

/// 6: the data must be whole blocks, each of one sample a channel; no block is whole too.
fn data(format: Format, place: usize, body: &[u8]) -> Result<Wave, Refusal> {
    let block = usize::from(format.channels) * if format.tag == 1 { 2 } else { 4 };
    if !body.len().is_multiple_of(block) {
        return Err((6, place));
    }
    Ok(Wave {
        number: 0,
        place: 0,
        rate: format.rate,
        channels: format.channels.into(),
        tag: format.tag.into(),
        data: place + 8,
        data_len: body.len(),
    })
}

/// So many floats of a stretch: of 16 bits with tag 1, else of 32. Past the last whole sample they are +0.
pub fn floats(stretch: &[u8], tag: u32, count: usize) -> Vec<f32> {
    let mut floats: Vec<f32> = match tag {
        1 => stretch.chunks_exact(2).take(count).map(sixteen_bits).collect(),
        _ => stretch.chunks_exact(4).take(count).map(binary32).collect(),
    };
    floats.resize(count, 0.0);
    floats
}

/// Two's complement, divided by 32,768, which is exact.
fn sixteen_bits(two: &[u8]) -> f32 {
    f32::from(i16::from_le_bytes([two[0], two[1]])) / 32_768.0
}

/// The float as it is.
fn binary32(four: &[u8]) -> f32 {
    f32::from_le_bytes([four[0], four[1], four[2], four[3]])
}
