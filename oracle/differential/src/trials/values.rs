//! Delay values, beside the published ones from the same sixteen random numbers.

use crate::dice::Dice;
use crate::law;
use crate::report::{Check, Journal};
use crate::sounds;
use hall::Value;
use phonon::effects::reverb::ReverbEffect;

pub fn delay_values(dice: &mut Dice, journal: &mut Journal) -> Check {
    for _ in 0..6 {
        journal.parts += 17;
        sixteen(dice, journal)?;
        least(dice, journal)?;
        refused(dice, journal)?;
    }
    Ok(())
}

/// All sixteen values of a time and a rate.
fn sixteen(dice: &mut Dice, journal: &mut Journal) -> Check {
    let (time, rate) = (sounds::time(dice), sounds::rate(dice));
    let randoms = std::array::from_fn(|_| dice.word() as u16);
    let rust = ReverbEffect::delays(time, rate, randoms);
    for index in 0..16 {
        journal.call(format_args!(
            "delay value {index}, time {time:e}, rate {rate}, random {}",
            randoms[index]
        ));
        let value = hall::delay_value(time, rate, randoms[index], index);
        journal.same("value", value, accepted(rust[index] as u32))?;
        journal.answers[0] += 1;
    }
    Ok(())
}

fn accepted(value: u32) -> Value {
    Value { number: 0, value }
}

/// R6.8, R6.9: the least delay. The Rust has it inside its sixteen values only, so this one rests on the rules.
fn least(dice: &mut Dice, journal: &mut Journal) -> Check {
    let (time, rate) = (sounds::time(dice), sounds::rate(dice));
    journal.call(format_args!("delay_min, time {time:e}, rate {rate}"));
    let expected = ((0.15 * time) * rate as f32) / 16.0;
    journal.answers[0] += 1;
    journal.same("value", hall::delay_min(time, rate), accepted(expected as u32))
}

/// Requests with something wrong: the lowest number is given, and the value is 0.
fn refused(dice: &mut Dice, journal: &mut Journal) -> Check {
    let time = if dice.once_in(2) {
        sounds::bad_time(dice)
    } else {
        sounds::time(dice)
    };
    let rate = if dice.once_in(2) {
        sounds::bad_rate(dice)
    } else {
        sounds::rate(dice)
    };
    let x = dice.pick(&[0, 200_000, 200_001, u32::MAX]);
    let index = dice.pick(&[0, 15, 16, 17, 1 << 32, usize::MAX]);
    journal.call(format_args!("time {time:e}, rate {rate}, x {x}, index {index}"));
    let (rate_bad, time_bad, index_bad) = (!law::rate_ok(rate), !law::time_ok(time), index > 15);
    let least = lowest(&[(rate_bad, 2), (time_bad, 6)]);
    let value = lowest(&[(rate_bad, 2), (index_bad, 4), (time_bad, 6)]);
    let power = lowest(&[(x > 200_000 || index_bad, 4)]);
    refused_with(journal, "delay_min", hall::delay_min(time, rate), least)?;
    refused_with(journal, "delay_value", hall::delay_value(time, rate, 7, index), value)?;
    refused_with(journal, "prime_power", hall::prime_power(x, index), power)
}

/// The lowest number that applies.
fn lowest(cases: &[(bool, u32)]) -> u32 {
    cases
        .iter()
        .find(|(applies, _)| *applies)
        .map_or(0, |(_, number)| *number)
}

/// Compares a refusal; what was accepted after all is compared elsewhere.
fn refused_with(journal: &mut Journal, call: &str, said: Value, number: u32) -> Check {
    journal.same(format_args!("number of {call}"), said.number, number)?;
    journal.answers[number as usize] += 1;
    if number == 0 {
        return Ok(());
    }
    journal.same(format_args!("value of {call}"), said.value, 0)
}
