//! A comparison that sees nothing wrong is worth something only if it would have seen it: a fault is put in front of the port, and the
//! comparison must fail. Each fault is small and rare.

use claspotter_harness::compare;
use claspotter_harness::inputs::Source;
use claspotter_harness::port::{Archive, Config, Port, Quantised, Way};
use claspotter_harness::records::{Fields, Reading, Writing};
use claspotter_harness::tally::Tally;
use claspotter_harness::width::Sample;

const CASES: u64 = 60_000;

/// What is planted. One type for all faults, since the comparison is compiled for each port that it is asked of.
#[derive(Clone, Copy, PartialEq, Eq)]
enum Fault {
    Nothing,
    /// One residual is off by one, in long buffers at width 16 alone.
    WrongResidual,
    /// A refusal writes: the first sample is toggled before the tests.
    WritesBesideRefusal,
    /// The last place of the state is left as it was.
    StaleState,
    /// Tests 3 and 4 in the other order.
    TestsSwapped,
    /// The accumulator test lets the first total past the limit by.
    AdmitsTooMuch,
    /// A negative bias is taken down to the next integer where it is to be cut toward zero.
    BiasTakenDown,
    /// A reader rounds the number of bits used up to whole bytes.
    WholeBytes,
    /// A writer clears the byte behind the record.
    ClearsBehind,
    /// A reader fills what it is lent, whatever its length.
    ReadsAnyNumberOfWeights,
    /// A writer makes up the weights that it misses.
    WritesAnyNumberOfWeights,
    /// A variant that is unknown is written as nothing.
    UnknownAsNothing,
    /// Two bytes of one entry change places.
    SwappedBytes,
    /// Ragged bytes are let by.
    RaggedLetBy,
}

impl Port for Fault {
    fn encode<T: Sample>(&self, c: &Config, samples: &mut [T], state: &mut [T]) -> u32 {
        let answer = T::port_encode(c, samples, state);
        match self {
            Fault::WrongResidual if answer == 0 && T::W == 16 && samples.len() > 512 => {
                let x = samples[512].to_u64();
                samples[512] = T::from_u64(x + 1);
            }
            Fault::WritesBesideRefusal if answer == 3 && !samples.is_empty() => {
                samples[0] = T::from_u64(samples[0].to_u64() ^ 1 << (T::W - 1));
            }
            _ => {}
        }
        answer
    }

    fn decode<T: Sample>(&self, way: Way, c: &Config, state: &mut [T], piece: &mut [T]) -> u32 {
        let last = state.last().copied();
        let answer = T::port_decode(way, c, state, piece);
        match (self, last) {
            (Fault::StaleState, Some(last)) if way == Way::OrderSix => *state.last_mut().unwrap() = last,
            (Fault::TestsSwapped, _) if answer == 4 && T::port_admits(c.bias, c.weights) == 3 => return 3,
            _ => {}
        }
        answer
    }

    fn admits<T: Sample>(&self, bias: i64, weights: &[i32]) -> u32 {
        let paid = if *self == Fault::AdmitsTooMuch { bias.saturating_sub(bias.signum()) } else { bias };
        T::port_admits(paid, weights)
    }

    fn encode_bytes<T: Sample>(&self, c: &Config<u8>, samples: &mut [u8], state: &mut [u8]) -> u32 {
        let whole = if *self == Fault::RaggedLetBy { samples.len() / T::BYTES * T::BYTES } else { samples.len() };
        T::port_encode_bytes(c, &mut samples[..whole], state)
    }

    fn decode_bytes<T: Sample>(&self, way: Way, c: &Config<u8>, state: &mut [u8], piece: &mut [u8]) -> u32 {
        let answer = T::port_decode_bytes(way, c, state, piece);
        if *self == Fault::SwappedBytes && answer == 0 && T::W == 32 && piece.len() >= 64 {
            piece.swap(60, 63);
        }
        answer
    }

    fn quantise<T: Sample>(&self, order: usize, floats: &[f64], bias: f64, centre: T, weights: &mut [i32]) -> Quantised {
        let (answer, shift, cut) = T::port_quantise(order, floats, bias, centre, weights);
        let down = *self == Fault::BiasTakenDown && answer == 0 && cut < 0;
        Quantised { answer, shift, bias: cut - down as i64 }
    }

    fn read_record(&self, bytes: &[u8], variants: bool, weights: &mut [i32]) -> Reading {
        if *self == Fault::ReadsAnyNumberOfWeights {
            let mut array = [0; 32];
            let reading = Archive.read_record(bytes, variants, &mut array);
            if reading.answer == 0 {
                weights.iter_mut().zip(array).for_each(|(lent, weight)| *lent = weight);
            }
            return reading;
        }
        let mut reading = Archive.read_record(bytes, variants, weights);
        if *self == Fault::WholeBytes && reading.bits == 14 {
            reading.bits = 16;
        }
        reading
    }

    fn write_record(&self, fields: &Fields, weights: &[i32], bytes: &mut [u8]) -> Writing {
        let mut own = weights.to_vec();
        if *self == Fault::WritesAnyNumberOfWeights {
            own.resize(fields.order.min(32), 0);
        }
        let nothing = *self == Fault::UnknownAsNothing && fields.variant > 3;
        let given = if nothing { Fields::default() } else { fields.clone() };
        let writing = Archive.write_record(&given, &own, bytes);
        if let (Fault::ClearsBehind, Some(behind)) = (self, bytes.get_mut(writing.bits.div_ceil(8))) {
            *behind = 0;
        }
        writing
    }
}

fn compared(fault: Fault) -> Tally {
    compare::run(&fault, &mut Source::new(compare::SEED), CASES)
}

fn caught(fault: Fault) -> bool {
    compared(fault).differences() > 0
}

#[test]
fn no_fault_is_seen_in_the_port() {
    let tally = compared(Fault::Nothing);
    assert_eq!(tally.differences(), 0, "{}", tally.report());
    assert!(tally.calls() > CASES);
}

#[test]
fn a_wrong_residual_is_caught() {
    assert!(caught(Fault::WrongResidual));
}

#[test]
fn a_refusal_that_writes_is_caught() {
    assert!(caught(Fault::WritesBesideRefusal));
}

#[test]
fn a_stale_state_is_caught() {
    assert!(caught(Fault::StaleState));
}

#[test]
fn tests_in_another_order_are_caught() {
    assert!(caught(Fault::TestsSwapped));
}

#[test]
fn a_limit_that_is_one_too_high_is_caught() {
    assert!(caught(Fault::AdmitsTooMuch));
}

#[test]
fn a_bias_taken_down_is_caught() {
    assert!(caught(Fault::BiasTakenDown));
}

#[test]
fn record_faults_are_caught() {
    assert!(caught(Fault::WholeBytes));
    assert!(caught(Fault::ClearsBehind));
    assert!(caught(Fault::ReadsAnyNumberOfWeights));
    assert!(caught(Fault::WritesAnyNumberOfWeights));
    assert!(caught(Fault::UnknownAsNothing));
}

#[test]
fn swapped_bytes_are_caught() {
    assert!(caught(Fault::SwappedBytes));
}

#[test]
fn ragged_bytes_let_by_are_caught() {
    assert!(caught(Fault::RaggedLetBy));
}
