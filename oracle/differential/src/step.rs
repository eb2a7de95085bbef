//! One request, made of the library and compared in everything.

use crate::expected::expected;
use crate::report::{Check, Difference, Journal, Rule};
use crate::world::{Reply, Request, SLICES, World, ask};
use hall::{Filter, State};
use phonon::effects::reverb::ReverbEffect;

/// Makes a request, compares what it answers and leaves with what is expected, and moves the world on.
pub fn step(
    journal: &mut Journal,
    world: &mut World,
    request: Request,
    effect: &mut ReverbEffect,
) -> Result<Reply, Difference> {
    journal.call(format_args!(
        "{request:?}, F {}, input of {}",
        world.state.frame,
        world.input.len()
    ));
    let (reply, next) = expected(world, request, effect);
    let said = ask(world, request);
    journal.same("number", said.number, reply.number)?;
    journal.same("index", said.index, reply.index)?;
    journal.same("done", said.done, reply.done)?;
    journal.same("remaining", said.remaining, reply.remaining)?;
    same_world(journal, world, &next, rule(request, reply))?;
    journal.answers[reply.number as usize] += 1;
    if let Request::Frames(_) = request {
        // What was played is finite, and the rest must be as it was, NaNs too.
        journal.floats("output", &world.output, &next.output, Rule::Bytes)?;
        journal.at_once += reply.done as u64;
        journal.at_once_answers[reply.number as usize] += 1;
    }
    Ok(reply)
}

/// Bit for bit where nothing may have moved: refused before any frame, or several frames that are none.
fn rule(request: Request, reply: Reply) -> Rule {
    let refused = (1..=8).contains(&reply.number);
    let none_given = matches!(request, Request::Frames(_)) && reply.number == 0;
    if reply.done == 0 && (refused || none_given) {
        Rule::Bytes
    } else {
        Rule::Numbers
    }
}

/// Compares states and all memory, margins too.
pub fn same_world(journal: &Journal, hall: &World, expected: &World, rule: Rule) -> Check {
    same_state(journal, &hall.state, &expected.state, rule)?;
    for ((name, hall), expected) in SLICES.iter().zip(hall.slices()).zip(expected.slices()) {
        journal.floats(name, hall, expected, rule)?;
        journal.same(format_args!("margins of {name} kept"), hall.margins_kept(), true)?;
    }
    Ok(())
}

/// Compares two states field by field.
pub fn same_state(journal: &Journal, hall: &State, expected: &State, rule: Rule) -> Check {
    journal.same("rate", hall.rate, expected.rate)?;
    journal.same("frame", hall.frame, expected.frame)?;
    for line in 0..16 {
        journal.same(format_args!("lines[{line}]"), hall.lines[line], expected.lines[line])?;
    }
    for pass in 0..4 {
        journal.same(format_args!("passes[{pass}]"), hall.passes[pass], expected.passes[pass])?;
    }
    journal.same("count", hall.count, expected.count)?;
    same_filters(journal, "filters", &hall.filters, &expected.filters, rule)?;
    journal.same("busy", hall.busy, expected.busy)?;
    journal.same("tail", hall.tail, expected.tail)?;
    journal.same("marks", hall.marks, expected.marks)?;
    journal.same("next", hall.next, expected.next)?;
    same_filters(journal, "before", &hall.before, &expected.before, rule)
}

/// Compares the 51 filters; the index counts numbers, nine a filter.
fn same_filters(journal: &Journal, field: &str, hall: &[Filter; 51], expected: &[Filter; 51], rule: Rule) -> Check {
    journal.floats(field, hall.as_flattened(), expected.as_flattened(), rule)
}
