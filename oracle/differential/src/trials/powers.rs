//! Every power of a prime that a delay value can be.

use crate::report::{Check, Journal};
use phonon::effects::reverb::ReverbEffect;

const PRIMES: [i32; 16] = [2, 3, 5, 7, 11, 13, 17, 19, 23, 29, 31, 37, 41, 43, 47, 53];

/// The pairs of x and prime at which the Rust's f32 logarithms miss the exact rule: none was found. A pair that comes
/// up must be written here and in docs/DIFFERENCES.md.
const LISTED: [(u32, i32); 0] = [];

/// R8.15: the nearest powers beside the Rust's, which are rounded logarithms, for every x up to 200,000.
pub fn all_powers(journal: &mut Journal) -> Check {
    journal.begin();
    let mut powers = vec![0; 200_001];
    for (index, prime) in PRIMES.into_iter().enumerate() {
        journal.call(format_args!("powers of {prime}"));
        hall::prime_powers(index, &mut powers);
        for (x, power) in (0..).zip(&powers).filter(|(x, _)| !LISTED.contains(&(*x, prime))) {
            let expected = ReverbEffect::power_of_prime(x as i32, prime) as u32;
            if *power != expected {
                return journal.same(format_args!("x {x}"), *power, expected);
            }
        }
    }
    Ok(())
}
