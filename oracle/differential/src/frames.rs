//! What several frames at once are lent.

use crate::dice::Dice;
use crate::sounds::{self, Sound};
use crate::world::{Lent, World};

/// How many frames a trial hands over together: few, as the library may have to run under an emulator. Now and then
/// none.
pub fn few(dice: &mut Dice, frame: usize) -> usize {
    let any = dice.between(1, (64 / frame).clamp(2, 16));
    dice.pick(&[0, 1, 2, 3, any, any])
}

/// Lends a world so many frames of input, and as much output, which holds anything. Most frames are of the kind given.
pub fn lend(dice: &mut Dice, world: &mut World, sound: Sound, count: usize) {
    let frame = world.state.frame;
    let mut input = Vec::new();
    for _ in 0..count {
        let kind = if dice.once_in(6) { sounds::sound(dice) } else { sound };
        input.extend(sounds::row(dice, kind, frame));
    }
    world.output = Lent::from(sounds::any_row(dice, input.len()));
    world.input = Lent::from(input);
}
