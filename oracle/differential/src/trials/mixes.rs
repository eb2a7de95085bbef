//! The filter and the mix alone, on any floats.

use crate::dice::Dice;
use crate::report::{Check, Journal, Rule};
use crate::sounds;
use crate::world::Lent;
use phonon::dsp::iir::{IIR, IIRFilterer};
use phonon::effects::reverb::ReverbEffect;
use ultraviolet::f32x4;

pub fn filters_and_mixes(dice: &mut Dice, journal: &mut Journal) -> Check {
    for _ in 0..10 {
        journal.parts += 2;
        filter(dice, journal)?;
        mix(dice, journal)?;
        refused_mix(dice, journal)?;
    }
    Ok(())
}

/// A run of a filter with any nine numbers over any row.
fn filter(dice: &mut Dice, journal: &mut Journal) -> Check {
    let length = dice.below(300);
    let given = sounds::coefficients(dice);
    let mut numbers: [f32; 9] = std::array::from_fn(|k| if k < 5 { given[k] } else { dice.noise() });
    if dice.once_in(4) {
        numbers[dice.below(9)] = dice.any_float();
    }
    journal.call(format_args!("filter run, {numbers:?}, row of {length}"));
    let mut row = Lent::from(sounds::any_row(dice, length));
    let mut expected = row.to_vec();
    let mut rust = IIRFilterer::new(IIR::with(numbers));
    rust.apply_self(&mut expected);
    let hall::ByValue(after) = hall::filter_run(hall::ByValue(numbers), &mut row);
    journal.floats("row", &row, &expected, Rule::Numbers)?;
    journal.same("margins of the row kept", row.margins_kept(), true)?;
    journal.floats("filter", &after, &rust.numbers(), Rule::Numbers)
}

/// Four samples of sixteen lines at once, as the Rust mixes them.
fn mix(dice: &mut Dice, journal: &mut Journal) -> Check {
    let x: [Vec<f32>; 16] = std::array::from_fn(|_| sounds::any_row(dice, 4));
    let expected = ReverbEffect::mix(&std::array::from_fn(|line| f32x4::from(&x[line][..])));
    for sample in 0..4 {
        journal.call(format_args!("mix of sample {sample} of {x:?}"));
        let column: Vec<f32> = x.iter().map(|row| row[sample]).collect();
        let wanted: Vec<f32> = expected.iter().map(|y| y.as_array_ref()[sample]).collect();
        let mut y = Lent::from(sounds::any_row(dice, 16));
        let number = hall::mix16(&column, &mut y);
        journal.same("number", number, 0)?;
        journal.floats("y", &y, &wanted, Rule::Numbers)?;
        journal.same("margins of y kept", y.margins_kept(), true)?;
        journal.answers[0] += 1;
    }
    Ok(())
}

/// A mix of slices that haven't both sixteen floats.
fn refused_mix(dice: &mut Dice, journal: &mut Journal) -> Check {
    let wrong = dice.pick(&[0, 1, 15, 17, 32]);
    let (nx, ny) = dice.pick(&[(wrong, 16), (16, wrong), (wrong, wrong)]);
    journal.call(format_args!("mix of {nx} into {ny}"));
    let x = sounds::any_row(dice, nx);
    let y = Lent::from(sounds::any_row(dice, ny));
    let mut after = y.clone();
    journal.same("number", hall::mix16(&x, &mut after), 3)?;
    journal.answers[3] += 1;
    journal.floats("y", &after, &y, Rule::Bytes)
}
