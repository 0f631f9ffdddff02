//! The whole comparison, from a seed.

use crate::inputs::Source;
use crate::port::Port;
use crate::tally::Tally;
use crate::{coding, quantising, records};

pub const SEED: u64 = 20_261_115;
/// Rounds. Each makes several calls.
pub const CASES: u64 = 4_000_000;
/// After this many differences there is no sense in going on.
const ENOUGH: usize = 20;

pub fn run<P: Port>(port: &P, s: &mut Source, cases: u64) -> Tally {
    let mut tally = Tally::default();
    records::all_short(port, &mut tally);
    for _ in 0..cases {
        match s.below(8) {
            0 => records::round(port, s, &mut tally),
            1 => match s.below(3) {
                0 => quantising::round::<u8, P>(port, s, &mut tally),
                1 => quantising::round::<u16, P>(port, s, &mut tally),
                _ => quantising::round::<u32, P>(port, s, &mut tally),
            },
            _ => match s.below(3) {
                0 => coding::round::<u8, P>(port, s, &mut tally),
                1 => coding::round::<u16, P>(port, s, &mut tally),
                _ => coding::round::<u32, P>(port, s, &mut tally),
            },
        }
        if tally.differences() >= ENOUGH {
            break;
        }
    }
    tally
}
