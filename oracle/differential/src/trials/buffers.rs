//! The buffer helpers, beside the published traits on channels.

use crate::dice::Dice;
use crate::report::{Check, Journal, Rule};
use crate::sounds;
use crate::world::Lent;
use phonon::dsp::audio_buffer::{AudioBuffer, AudioBufferMut};

/// The helpers that are lent memory.
#[derive(Copy, Clone, Debug)]
enum Helper {
    Interleave,
    Deinterleave,
    MakeSilent,
    Scale(f32),
    Mix,
    Downmix,
}

/// What a helper is asked: the counts, what it reads and what it writes.
#[derive(Clone)]
struct Ask {
    helper: Helper,
    channels: usize,
    samples: usize,
    read: Lent,
    written: Lent,
}

pub fn buffer(dice: &mut Dice, journal: &mut Journal) -> Check {
    for _ in 0..12 {
        journal.parts += 1;
        let ask = fitting(dice);
        make(journal, &ask)?;
        make(journal, &spoiled(dice, &ask))?;
        channel_number(dice, journal)?;
    }
    Ok(())
}

/// A request whose counts and lengths fit.
fn fitting(dice: &mut Dice) -> Ask {
    let channels = dice.between(1, 16);
    let samples = if dice.once_in(40) { 65_536 } else { dice.below(80) };
    let whole = channels * samples;
    let volume = sounds::any_row(dice, 1)[0];
    let helper = match dice.below(6) {
        0 => Helper::Interleave,
        1 => Helper::Deinterleave,
        2 => Helper::MakeSilent,
        3 => Helper::Scale(volume),
        4 => Helper::Mix,
        _ => Helper::Downmix,
    };
    let (read, written) = match helper {
        Helper::MakeSilent | Helper::Scale(_) => (0, whole),
        Helper::Downmix => (whole, samples),
        _ => (whole, whole),
    };
    Ask {
        helper,
        channels,
        samples,
        read: Lent::from(sounds::any_row(dice, read)),
        written: Lent::from(sounds::any_row(dice, written)),
    }
}

/// The same with a count or a length that doesn't fit, or several.
fn spoiled(dice: &mut Dice, ask: &Ask) -> Ask {
    let mut ask = ask.clone();
    let wrong = dice.between(1, 3);
    for turn in 0.. {
        match dice.below(4) {
            0 => ask.channels = dice.pick(&[0, 17, 18, 1 << 32, usize::MAX]),
            1 => ask.samples = dice.pick(&[65_537, 1 << 32, 1 << 60, usize::MAX]),
            2 => ask.written = other_length(dice, &ask.written),
            _ => ask.read = other_length(dice, &ask.read),
        }
        if turn >= wrong && judged(&ask) != 0 {
            break;
        }
    }
    ask
}

fn other_length(dice: &mut Dice, floats: &Lent) -> Lent {
    let length = dice.pick(&[floats.len() + 1, floats.len().max(1) - 1, 0]);
    Lent::from(sounds::any_row(dice, length))
}

/// The number that is due. A helper that reads no second slice isn't judged by one.
fn judged(ask: &Ask) -> u32 {
    let samples_ok = ask.samples <= 65_536;
    let counts_ok = (1..=16).contains(&ask.channels) && samples_ok;
    let fits = |floats: &Lent| floats.len() == ask.channels * ask.samples;
    match ask.helper {
        Helper::Downmix if samples_ok && ask.written.len() != ask.samples => 3,
        _ if !counts_ok => 4,
        Helper::Downmix => 3 * u32::from(!fits(&ask.read)),
        Helper::MakeSilent | Helper::Scale(_) => 3 * u32::from(!fits(&ask.written)),
        _ => 3 * u32::from(!fits(&ask.read) || !fits(&ask.written)),
    }
}

/// Makes a request and compares.
fn make(journal: &mut Journal, ask: &Ask) -> Check {
    let Ask {
        helper,
        channels,
        samples,
        read,
        written,
    } = ask;
    journal.call(format_args!(
        "{helper:?}, {channels} channels of {samples}, {} read, {} written",
        read.len(),
        written.len()
    ));
    let number = judged(ask);
    let mut after = written.clone();
    let said = match *helper {
        Helper::Interleave => hall::interleave(*channels, *samples, read, &mut after),
        Helper::Deinterleave => hall::deinterleave(*channels, *samples, read, &mut after),
        Helper::MakeSilent => hall::make_silent(*channels, *samples, &mut after),
        Helper::Scale(volume) => hall::scale(*channels, *samples, volume, &mut after),
        Helper::Mix => hall::buffer_mix(*channels, *samples, read, &mut after),
        Helper::Downmix => hall::downmix(*channels, *samples, read, &mut after),
    };
    journal.same("number", said, number)?;
    journal.answers[number as usize] += 1;
    journal.same("margins kept", after.margins_kept(), true)?;
    if number != 0 {
        return journal.floats("slice", &after, written, Rule::Bytes);
    }
    journal.floats("slice", &after, &by_the_rust(ask), Rule::Numbers)
}

/// What the Rust writes. With no samples its channels are there and empty.
fn by_the_rust(ask: &Ask) -> Vec<f32> {
    let mut written = ask.written.to_vec();
    let cut = |floats: &[f32]| -> Vec<Vec<f32>> {
        let channel = |k: usize| floats[k * ask.samples..(k + 1) * ask.samples].to_vec();
        (0..ask.channels).map(channel).collect()
    };
    match ask.helper {
        Helper::Interleave => shared(&cut(&ask.read)).write_interleaved(&mut [&mut written]),
        Helper::Mix => written = changed(cut(&written), |other| shared(&cut(&ask.read)).mix(other)),
        Helper::Downmix => shared(&cut(&ask.read)).downmix(&mut [&mut written]),
        Helper::Deinterleave => written = changed(cut(&written), |buffer| buffer.read_interleaved(&[&ask.read])),
        Helper::MakeSilent => written = changed(cut(&written), |buffer| buffer.make_silent()),
        Helper::Scale(volume) => written = changed(cut(&written), |buffer| buffer.scale(volume)),
    }
    written
}

fn shared(channels: &[Vec<f32>]) -> Vec<&[f32]> {
    channels.iter().map(Vec::as_slice).collect()
}

/// The channels, one after another, once they have been changed.
fn changed(mut channels: Vec<Vec<f32>>, change: impl FnOnce(&mut [&mut [f32]])) -> Vec<f32> {
    change(&mut channels.iter_mut().map(Vec::as_mut_slice).collect::<Vec<_>>());
    channels.concat()
}

/// R7.13: 4 for the counts, 3 for the length, 4 for the channel. The Rust hands out no single channel.
fn channel_number(dice: &mut Dice, journal: &mut Journal) -> Check {
    let channels = dice.pick(&[0, 1, 2, 15, 16, 17, usize::MAX]);
    let samples = dice.pick(&[0, 1, 7, 65_536, 65_537, 1 << 60, usize::MAX]);
    let counts_ok = (1..=16).contains(&channels) && samples <= 65_536;
    let whole = channels.wrapping_mul(samples);
    let length = dice.pick(&[whole, whole, whole.wrapping_add(1), 0]);
    let channel = dice.pick(&[0, 1, channels.wrapping_sub(1), channels, usize::MAX]);
    journal.call(format_args!(
        "channel {channel} of {channels} of {samples}, length {length}"
    ));
    let number = match () {
        _ if !counts_ok => 4,
        _ if length != whole => 3,
        _ if channel >= channels => 4,
        _ => 0,
    };
    journal.answers[number as usize] += 1;
    journal.same(
        "number",
        hall::channel_number(channels, samples, channel, length),
        number,
    )
}
