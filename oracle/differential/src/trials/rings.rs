//! A ring alone: gets, puts, fours and resets of any lengths, beside the published `Delay`.

use crate::dice::Dice;
use crate::report::{Check, Journal, Rule};
use crate::rust_unit;
use crate::sounds;
use crate::world::Lent;
use hall::{Cursors, RingAnswer};
use phonon::dsp::delay::Delay;

/// A ring of the library, and the same of the Rust.
struct Ring {
    samples: Lent,
    cursors: Cursors,
    rust: Delay,
}

/// One ring and a run of calls on it.
pub fn ring(dice: &mut Dice, journal: &mut Journal) -> Check {
    for _ in 0..3 {
        refused_by_length(dice, journal)?;
        let mut ring = begin(dice);
        let calls = if ring.samples.len() > 4_000 { 12 } else { 60 };
        for _ in 0..calls {
            journal.parts += 1;
            one_call(dice, journal, &mut ring)?;
        }
    }
    Ok(())
}

/// A ring of any floats, its cursors equal or not.
fn begin(dice: &mut Dice) -> Ring {
    let any = dice.between(1, 3_000);
    let small = dice.between(1, 12);
    let length = dice.pick(&[small, small, small, 225, 341, any, 65_536]);
    let samples = Lent::from(sounds::any_row(dice, length));
    let read = dice.below(length);
    let write = if dice.once_in(2) { read } else { dice.below(length) };
    Ring {
        rust: Delay::with(&samples, read, write),
        samples,
        cursors: Cursors { read, write },
    }
}

fn one_call(dice: &mut Dice, journal: &mut Journal, ring: &mut Ring) -> Check {
    match dice.below(16) {
        0 => reset(journal, ring),
        1 => refused_by_cursor(dice, journal, ring),
        2 => refused_by_count(dice, journal, ring),
        3..6 => get4(journal, ring),
        6..9 => put4(dice, journal, ring),
        9..12 => get(dice, journal, ring),
        _ => put(dice, journal, ring),
    }
}

/// The answer of an accepted call, and everything after it, beside the Rust.
fn same_ring(journal: &mut Journal, ring: &mut Ring, answer: RingAnswer) -> Check {
    journal.same("number", answer.number, 0)?;
    journal.same("cursors", answer.cursors, rust_unit::cursors(&ring.rust))?;
    journal.floats("ring", &ring.samples, ring.rust.ring(), Rule::Numbers)?;
    journal.same("margins of the ring kept", ring.samples.margins_kept(), true)?;
    journal.answers[0] += 1;
    ring.cursors = answer.cursors;
    Ok(())
}

/// A number of samples that is accepted: often the whole ring, or up to its end.
fn count(dice: &mut Dice, length: usize, cursor: usize) -> usize {
    let any = dice.between(1, length);
    dice.pick(&[any, any, 1, length, length - cursor])
}

fn get(dice: &mut Dice, journal: &mut Journal, ring: &mut Ring) -> Check {
    let length = ring.samples.len();
    let n = count(dice, length, ring.cursors.read);
    journal.call(format_args!("ring get {n}, L {length}, {:?}", ring.cursors));
    let mut out = Lent::from(sounds::any_row(dice, n));
    let mut expected = vec![0.0; n];
    ring.rust.get(n, &mut expected);
    let answer = hall::ring_get(&ring.samples, ring.cursors, &mut out);
    journal.floats("out", &out, &expected, Rule::Numbers)?;
    journal.same("margins of out kept", out.margins_kept(), true)?;
    same_ring(journal, ring, answer)
}

fn put(dice: &mut Dice, journal: &mut Journal, ring: &mut Ring) -> Check {
    let length = ring.samples.len();
    let n = count(dice, length, ring.cursors.write);
    journal.call(format_args!("ring put {n}, L {length}, {:?}", ring.cursors));
    let xs = sounds::any_row(dice, n);
    ring.rust.put(n, &xs);
    let answer = hall::ring_put(&mut ring.samples, ring.cursors, &xs);
    same_ring(journal, ring, answer)
}

/// R3.7, R3.11: a Rust read cursor that rests at the ring's length is set to 0 before, since its `get4` would panic.
fn get4(journal: &mut Journal, ring: &mut Ring) -> Check {
    journal.call(format_args!("ring get4, L {}, {:?}", ring.samples.len(), ring.cursors));
    if ring.rust.cursors().0 == ring.samples.len() {
        ring.rust = Delay::with(ring.rust.ring(), 0, ring.rust.cursors().1);
    }
    let expected = ring.rust.get4();
    let answer = hall::ring_get4(&ring.samples, ring.cursors);
    journal.floats("x", &answer.x, expected.as_array_ref(), Rule::Numbers)?;
    let (number, cursors) = (answer.number, answer.cursors);
    same_ring(journal, ring, RingAnswer { number, cursors })
}

fn put4(dice: &mut Dice, journal: &mut Journal, ring: &mut Ring) -> Check {
    journal.call(format_args!("ring put4, L {}, {:?}", ring.samples.len(), ring.cursors));
    let row = sounds::any_row(dice, 4);
    ring.rust.put4(&row[..].into());
    let answer = hall::ring_put4(&mut ring.samples, ring.cursors, row[0], row[1], row[2], row[3]);
    same_ring(journal, ring, answer)
}

fn reset(journal: &mut Journal, ring: &mut Ring) -> Check {
    journal.call(format_args!("ring reset, L {}, {:?}", ring.samples.len(), ring.cursors));
    ring.rust.reset();
    let answer = hall::ring_reset(&mut ring.samples, ring.cursors);
    same_ring(journal, ring, answer)
}

/// R2.6: a ring that is empty or too long, whatever its cursors are.
fn refused_by_length(dice: &mut Dice, journal: &mut Journal) -> Check {
    let length = dice.pick(&[0, 0, 65_537]);
    let samples = Lent::from(sounds::any_row(dice, length));
    let cursors = Cursors {
        read: dice.pick(&[0, length, usize::MAX]),
        write: dice.pick(&[0, length, usize::MAX]),
    };
    let n = dice.below(3);
    refused(dice, journal, &samples, cursors, n, 3)
}

/// A cursor at the ring's length or above it: every call judges both.
fn refused_by_cursor(dice: &mut Dice, journal: &mut Journal, ring: &Ring) -> Check {
    let mut cursors = ring.cursors;
    let beyond = dice.pick(&[ring.samples.len(), ring.samples.len() + 1, usize::MAX]);
    if dice.once_in(2) {
        cursors.read = beyond;
    } else {
        cursors.write = beyond;
    }
    let n = dice.below(3);
    refused(dice, journal, &ring.samples, cursors, n, 1)
}

/// R3.15: a get or put of no sample, or of more than the ring has.
fn refused_by_count(dice: &mut Dice, journal: &mut Journal, ring: &Ring) -> Check {
    let n = dice.pick(&[0, ring.samples.len() + 1, 2 * ring.samples.len() + 3]);
    refused(dice, journal, &ring.samples, ring.cursors, n, 4)
}

/// Makes one call that is refused with a number: get or put, and where n doesn't matter any of the five.
fn refused(dice: &mut Dice, journal: &mut Journal, samples: &Lent, c: Cursors, n: usize, number: u32) -> Check {
    let length = samples.len();
    journal.call(format_args!("refused ring call, n {n}, L {length}, {c:?}"));
    let mut ring = samples.clone();
    let row = Lent::from(sounds::any_row(dice, n));
    let mut out = row.clone();
    let kinds = if number == 4 { 2 } else { 5 };
    let answer = match dice.below(kinds) {
        0 => hall::ring_get(&ring, c, &mut out),
        1 => hall::ring_put(&mut ring, c, &row),
        2 => hall::ring_put4(&mut ring, c, 1.0, 2.0, 3.0, 4.0),
        3 => hall::ring_reset(&mut ring, c),
        _ => {
            let four = hall::ring_get4(&ring, c);
            journal.floats("x", &four.x, &[0.0; 4], Rule::Bytes)?;
            RingAnswer {
                number: four.number,
                cursors: four.cursors,
            }
        }
    };
    journal.same("answer", answer, RingAnswer { number, cursors: c })?;
    journal.floats("ring", &ring, samples, Rule::Bytes)?;
    journal.floats("out", &out, &row, Rule::Bytes)?;
    journal.answers[number as usize] += 1;
    journal.same("margins kept", ring.margins_kept() && out.margins_kept(), true)
}
