//! Every listed difference with the Rust, with its smallest input: what the port does, and what the Rust does. docs/DIFFERENCES.md
//! has the same list in words. Where the Rust's arithmetic overflows, a build with overflow checks panics and one without wraps; both
//! are said.

use claspotter_harness::port::{Archive, Config, Port, Way};
use claspotter_harness::quiet::unless_it_panics;
use claspotter_harness::records::Fields;
use claspotter_harness::width::Sample;
use claspotter_harness::{differences, model};
use original::doors;

/// Whether this build of the Rust panics where its arithmetic overflows.
const CHECKED: bool = cfg!(debug_assertions);

fn rust_encode<T: Sample>(shift: u32, bias: i64, weights: &[i32], samples: &[T]) -> Option<Vec<T>> {
    let mut buffer = samples.to_vec();
    let config = doors::Config::new(shift, bias, weights);
    unless_it_panics(|| T::rust_encode(&config, &mut buffer))?;
    Some(buffer)
}

fn port_encode<T: Sample>(shift: u32, bias: i64, weights: &[i32], samples: &[T]) -> (u32, Vec<T>) {
    let mut buffer = samples.to_vec();
    let config = Config { order: weights.len(), shift, bias, weights };
    let answer = Archive.encode(&config, &mut buffer, &mut vec![T::default(); weights.len()]);
    (answer, buffer)
}

#[test]
fn a_short_last_batch_panics_in_the_rust() {
    // 513 samples at order 2 leave 1; the fewest of all.
    let samples: Vec<u8> = (0..513).map(|i| i as u8).collect();
    assert_eq!(rust_encode(0, 0, &[-1, 2], &samples), None);
    let (answer, buffer) = port_encode(0, 0, &[-1, 2], &samples);
    let config = Config { order: 2, shift: 0, bias: 0, weights: &[-1, 2] };
    let list: Vec<u64> = samples.iter().map(|&x| x as u64).collect();
    let right: Vec<u8> = model::encoded(8, &config, &list).into_iter().map(|x| x as u8).collect();
    assert_eq!((answer, buffer), (0, right));
    // Its neighbours are no difference: 512, 514, and order 1.
    for (weights, n) in [(&[-1, 2][..], 512), (&[-1, 2], 514), (&[1], 513)] {
        let samples = vec![7u8; n];
        assert_eq!(rust_encode(0, 0, weights, &samples), Some(port_encode(0, 0, weights, &samples).1));
    }
}

#[test]
fn the_rule_of_short_last_batches_is_exact() {
    for order in 1..=32 {
        let weights = vec![1; order];
        for n in [511, 512, 513, 514, 542, 543, 544, 545, 1023, 1024, 1025, 1055, 1056, 1536, 1537] {
            let panics = rust_encode(3, 0, &weights, &vec![1u16; n]).is_none();
            assert_eq!(panics, differences::short_last_batch(n, order), "order {order}, {n} samples");
        }
    }
}

#[test]
fn too_few_samples_panic_in_the_rust() {
    assert_eq!(rust_encode::<u8>(0, 0, &[1], &[]), None);
    assert_eq!(port_encode::<u8>(0, 0, &[1], &[]), (5, vec![]));
}

#[test]
fn a_state_of_another_length_panics_in_the_rust() {
    for len in [0, 2] {
        let (mut state, mut piece) = (vec![0u8; len], [129u8]);
        let config = doors::Config::new(0, 0, &[1]);
        assert!(unless_it_panics(|| u8::rust_decode(&config, &mut state, &mut piece)).is_none());
        let (mut state, mut piece) = (vec![0u8; len], [129u8]);
        let config = Config { order: 1, shift: 0, bias: 0, weights: &[1] };
        assert_eq!(Archive.decode(Way::Chosen, &config, &mut state, &mut piece), 4);
        assert_eq!((state, piece), (vec![0; len], [129]));
    }
}

#[test]
fn the_rust_codes_with_orders_0_and_33() {
    assert_eq!(rust_encode::<u8>(0, 0, &[], &[5]), Some(vec![133]));
    assert_eq!(port_encode::<u8>(0, 0, &[], &[5]), (1, vec![5]));
    assert!(rust_encode::<u8>(0, 0, &[0; 33], &[0; 33]).is_some());
    assert_eq!(port_encode::<u8>(0, 0, &[0; 33], &[0; 33]), (1, vec![0; 33]));
}

#[test]
fn a_shift_of_the_accumulators_width_overflows_in_the_rust() {
    // Without checks the shift is taken modulo 16: nothing is shifted, and the prediction is 1.
    let wrapped = if CHECKED { None } else { Some(vec![129, 128]) };
    assert_eq!(rust_encode::<u8>(16, 0, &[1], &[1, 1]), wrapped);
    assert_eq!(port_encode::<u8>(16, 0, &[1], &[1, 1]), (2, vec![1, 1]));
}

#[test]
fn what_is_not_admitted_may_overflow_in_the_rust() {
    // 129 times 255 is 32,895, past 16 bits: without checks it wraps to a negative sum, and the prediction is 0 and not 127.
    let wrapped = if CHECKED { None } else { Some(vec![127, 128]) };
    assert_eq!(rust_encode::<u8>(0, 0, &[129], &[255, 0]), wrapped);
    assert_eq!(port_encode::<u8>(0, 0, &[129], &[255, 0]), (3, vec![255, 0]));
    // The rule looks at no samples, so that it refuses where the Rust would be right.
    assert_eq!(rust_encode::<u8>(0, 0, &[129], &[0, 0]), Some(vec![128, 128]));
    assert_eq!(port_encode::<u8>(0, 0, &[129], &[0, 0]), (3, vec![0, 0]));
    // A bias, and at W=8 a weight, that the accumulator does not hold is cut in the Rust.
    assert_eq!(rust_encode::<u8>(0, 65536, &[0], &[0, 0]), Some(vec![128, 128]));
    assert_eq!(port_encode::<u8>(0, 65536, &[0], &[0, 0]), (3, vec![0, 0]));
    assert_eq!(rust_encode::<u8>(0, 0, &[65536], &[1, 0]), Some(vec![129, 128]));
    assert_eq!(port_encode::<u8>(0, 0, &[65536], &[1, 0]), (3, vec![1, 0]));
}

fn quantised<T: Sample>(floats: &[f64], c: f64, centre: T) -> (u32, u32, i64, Vec<i32>) {
    let mut weights = vec![-1; floats.len()];
    let given = Archive.quantise(floats.len(), floats, c, centre, &mut weights);
    (given.answer, given.shift, given.bias, weights)
}

fn rust_quantised<T: Sample>(floats: &[f64], c: f64, centre: T) -> Option<Option<(u32, i64)>> {
    let mut list = floats.to_vec();
    list.push(c);
    let given = unless_it_panics(|| T::rust_quantise(floats.len(), &list, centre))?;
    Some(given.map(|q| (q.shift, q.bias)))
}

#[test]
fn the_rusts_logarithm_rounds_up_below_a_power_of_two() {
    assert_eq!(quantised(&[0.0], 126.99609375000001, 0u8), (0, 6, 8127, vec![0]));
    assert_eq!(rust_quantised(&[0.0], 126.99609375000001, 0u8), Some(Some((7, 16255))));
    assert_eq!(quantised(&[0.0], 126.99999994039537, 0u16).1, 22);
    assert_eq!(rust_quantised(&[0.0], 126.99999994039537, 0u16).unwrap().unwrap().0, 23);
    assert_eq!(quantised(&[0.0], 8589934591.000002, 0u32).1, 28);
    assert_eq!(rust_quantised(&[0.0], 8589934591.000002, 0u32).unwrap().unwrap().0, 29);
    // At the power itself both say the same.
    assert_eq!(quantised(&[0.0], 126.99609375, 0u8).1, 7);
    assert_eq!(rust_quantised(&[0.0], 126.99609375, 0u8).unwrap().unwrap().0, 7);
}

#[test]
fn an_infinite_divisor_gives_the_rust_a_shift() {
    let greatest = if CHECKED { None } else { Some(Some((15, 0))) };
    assert_eq!(quantised(&[1e306], 0.0, 0u8), (6, 0, 0, vec![-1]));
    assert_eq!(rust_quantised(&[1e306], 0.0, 0u8), greatest);
    assert_eq!(quantised(&[0.0], f64::INFINITY, 0u8), (6, 0, 0, vec![-1]));
    // A divisor that is no number is refused by both.
    assert_eq!(quantised(&[0.0], f64::NAN, 0u8), (6, 0, 0, vec![-1]));
    assert_eq!(rust_quantised(&[0.0], f64::NAN, 0u8), Some(None));
}

#[test]
fn the_rust_quantises_orders_0_and_33() {
    assert_eq!(quantised(&[], 0.0, 0u8), (1, 0, 0, vec![]));
    assert_eq!(rust_quantised(&[], 0.0, 0u8), Some(Some((13, 0))));
    assert_eq!(quantised(&[0.0; 33], 0.0, 0u8).0, 1);
    assert_eq!(rust_quantised(&[0.0; 33], 0.0, 0u8), Some(Some((13, 0))));
}

fn consecutive(order: usize) -> Fields {
    Fields { variant: 1, order, ..Fields::default() }
}

fn lookback(window: u32, state: u32) -> Fields {
    Fields { variant: 2, window, state, ..Fields::default() }
}

fn conv1(order: usize, shift: u32) -> Fields {
    Fields { variant: 3, order, shift, ..Fields::default() }
}

/// The port refuses with this number and writes nothing; the Rust writes these bytes first.
fn written_anyway(fields: Fields, answer: u32, rust: &[u8]) {
    let mut bytes = [0xFF; 142];
    let writing = Archive.write_record(&fields, fields.own_weights(), &mut bytes);
    assert_eq!((writing.answer, writing.bits, bytes), (answer, 0, [0xFF; 142]));
    let (written, _) = unless_it_panics(|| doors::write_record(&fields.to_rust())).expect("the Rust writes");
    assert_eq!(written[..rust.len()], *rust, "{fields:?}");
    let read_back = doors::read_record(&written, true).map(|(record, _)| Fields::from_rust(&record));
    assert_ne!(read_back, Ok(fields), "what is read is another record, or none");
}

#[test]
fn the_rust_writes_what_its_reader_refuses() {
    written_anyway(consecutive(0), 9, &[0x01]);
    written_anyway(lookback(25, 0), 9, &[0x82, 0x01]);
    written_anyway(lookback(1, 2), 9, &[0x02, 0x04]);
}

#[test]
fn the_rust_writes_what_does_not_fit_its_field() {
    written_anyway(consecutive(8), 10, &[0x81]);
    written_anyway(lookback(24, 16), 10, &[0x72, 0x21]);
    written_anyway(conv1(1, 32), 10, &[0x03, 0x02, 0, 0, 0, 0, 0, 0, 0, 0x01, 0, 0, 0, 0x20]);
    let thirty_three = [0x03, 0, 0, 0, 0, 0, 0, 0, 0, 0x41];
    written_anyway(conv1(33, 0), 1, &thirty_three);
}

#[test]
fn the_rust_subtracts_below_0_when_it_writes() {
    for (fields, answer, place, byte) in [(lookback(0, 0), 10, 1, 0xFF), (conv1(0, 0), 1, 9, 0xFF)] {
        let mut bytes = [0xFF; 142];
        assert_eq!(Archive.write_record(&fields, fields.own_weights(), &mut bytes).answer, answer);
        let rust = unless_it_panics(|| doors::write_record(&fields.to_rust()));
        assert_eq!(rust.is_none(), CHECKED, "{fields:?}");
        if let Some((written, _)) = rust {
            assert_eq!(written[place], byte, "{fields:?}");
        }
    }
}

#[test]
fn the_reader_tells_refusals_apart_that_are_one_in_the_rust() {
    for (bytes, answer, rust) in [
        (&[0x04][..], 8, doors::ReadError::Corruption),
        (&[0x01], 9, doors::ReadError::Corruption),
        (&[0x02], 7, doors::ReadError::InsufficientData),
        (&[], 7, doors::ReadError::InsufficientData),
    ] {
        assert_eq!(Archive.read_record(bytes, true, &mut [0; 32]).answer, answer);
        assert_eq!(doors::read_record(bytes, true), Err(rust));
    }
}
