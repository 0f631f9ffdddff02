//! A fit becomes a configuration, the configuration a record; a trace is encoded, its residuals are cut into pieces and decoded in their
//! order.
//!
//!     cargo run --offline --example roundtrip

use claspotter::{quantise, Config, Conv1, Record, Refusal, MAX_RECORD_BYTES};

const TRACE: [u16; 12] = [3309, 3313, 3316, 3320, 3319, 3317, 3318, 3321, 3325, 3326, 3324, 3320];

fn main() -> Result<(), Refusal> {
    // The last sample and 0.8 of the last step, in samples less 3200.
    let mut weights = [0; 2];
    let quantised = quantise(&[-0.8, 1.8], 0.25, 3200u16, &mut weights)?;
    let config = Config::new(quantised.shift, quantised.bias, &weights);
    println!("shift {}, bias {}, weights {:?}", config.shift, config.bias, config.weights);

    let mut bytes = [0; MAX_RECORD_BYTES];
    let bits = Record::Conv1(Conv1::try_from(&config)?).write(&mut bytes)?;
    println!("a record of {bits} bits");

    let (mut samples, mut state) = (TRACE, [0; 2]);
    let residuals = config.encode(&mut samples, &mut state)?;
    println!("state {state:?}, residuals {residuals:?}");

    // On the other side: the record, the state, and the residuals in pieces of three.
    let (record, _) = Record::read(&bytes, true)?;
    let Record::Conv1(conv1) = record else { unreachable!("a Conv1 was written") };
    let mut back = Vec::new();
    for piece in residuals.chunks_mut(3) {
        conv1.config().decode(&mut state, piece)?;
        back.extend_from_slice(piece);
    }
    back.extend_from_slice(&state);
    assert_eq!(back, TRACE);
    println!("whole: the {} samples came back", back.len());
    Ok(())
}
