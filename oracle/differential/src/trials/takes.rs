//! Studio takes (R11) beside the plain reader: damaged files.

use crate::damage;
use crate::dice::Dice;
use crate::report::{Check, Difference, Journal, Rule};
use crate::take_reader;
use crate::world::Lent;
use hall::Wave;

/// What the floats hold before they are set: no sample of a take is likely to be this.
const GUARD: u32 = 0x4b5a_5a5a;

/// One file, damaged or not, and the floats of its data or else of any stretch of it.
pub fn damaged_take(dice: &mut Dice, journal: &mut Journal) -> Check {
    journal.begin();
    let file = damage::damaged_file(dice);
    let wave = read(journal, "a take", dice.below(8), &file)?;
    journal.takes[wave.number as usize] += 1;
    let stretch = if wave.number == 0 {
        &file[wave.data..][..wave.data_len]
    } else {
        any_stretch(dice, &file)
    };
    let any = dice.word() as u32;
    let tag = match wave.tag {
        0 => dice.pick(&[1, 1, 3, 0, 0x1_0001, any]),
        own => dice.pick(&[own, own, own, 1, 3, 0x1_0001, any]),
    };
    let whole = stretch.len() / if tag == 1 { 2 } else { 4 };
    let (shorter, longer) = (dice.below(whole + 1), whole + dice.between(1, 9));
    let count = dice.pick(&[whole, whole, shorter, longer, longer, 0]);
    floats(journal, &file, stretch, tag, count)
}

/// A part of a file, mostly a short one.
fn any_stretch<'a>(dice: &mut Dice, file: &'a [u8]) -> &'a [u8] {
    let behind = &file[dice.below(file.len() + 1)..];
    let most = dice.pick(&[8, 256, 256, 4_096]);
    &behind[..dice.below(behind.len().min(most) + 1)]
}

/// Reads a file that begins so many bytes behind a place that is aligned; under an emulator, at one that is. Both readers
/// must say the same.
pub fn read(journal: &mut Journal, name: &str, offset: usize, file: &[u8]) -> Result<Wave, Difference> {
    journal.call(format_args!("read of {name}, {} bytes", file.len()));
    let expected = take_reader::read(file);
    // Who looks past the end finds a data chunk there.
    let lent = [&[0; 8][..offset], file, b"data\0\0\0\0data\0\0\0\0"].concat();
    let before = lent.clone();
    let said = hall::wave_read(&lent[offset..][..file.len()]);
    journal.same("number", said.number, expected.number)?;
    journal.same("place", said.place, expected.place)?;
    journal.same("rate", said.rate, expected.rate)?;
    journal.same("channels", said.channels, expected.channels)?;
    journal.same("tag", said.tag, expected.tag)?;
    journal.same("data", said.data, expected.data)?;
    journal.same("data_len", said.data_len, expected.data_len)?;
    journal.same("file unchanged", lent == before, true)?;
    Ok(expected)
}

/// So many floats of a stretch of a file.
pub fn floats(journal: &mut Journal, file: &[u8], stretch: &[u8], tag: u32, count: usize) -> Check {
    let length = stretch.len();
    journal.call(format_args!("{count} floats of {length} bytes with tag {tag:#x}"));
    let expected = take_reader::floats(stretch, tag, count);
    let mut out = Lent::from(vec![f32::from_bits(GUARD); count]);
    let before = file.to_vec();
    hall::wave_samples(stretch, tag, &mut out);
    journal.floats("out", &out, &expected, Rule::Numbers)?;
    journal.same("margins of out kept", out.margins_kept(), true)?;
    journal.same("file unchanged", file == before, true)
}
