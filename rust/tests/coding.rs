//! Encoding and decoding through the wrapper.

use claspotter::{raw, sys, Config, Refusal, Sample, Way, MAX_ORDER};

const WAYS: [Way; 2] = [Way::Chosen, Way::General];

/// Encodes, sees the whole buffer and the state, and decodes again, at once and sample by sample.
fn row<T: Sample>(weights: &[i32], bias: i64, shift: u32, samples: &[T], buffer: &[T]) {
    let config = Config::new(shift, bias, weights);
    let k = weights.len();
    let (mut coded, mut state) = (samples.to_vec(), vec![T::GREATEST; k]);
    assert_eq!(config.encode(&mut coded, &mut state).map(|residuals| residuals.to_vec()), Ok(buffer[k..].to_vec()));
    assert_eq!((&coded[..], &state[..]), (buffer, &samples[..k]));
    for step in [1, samples.len()] {
        let (mut coded, mut state) = (coded[k..].to_vec(), state.clone());
        for piece in coded.chunks_mut(step) {
            config.decode(&mut state, piece).unwrap();
        }
        assert_eq!([coded, state].concat(), samples);
    }
}

#[test]
fn the_table() {
    row::<u8>(&[1], 0, 0, &[10, 12, 11], &[138, 130, 127]);
    row::<u8>(&[-1, 2], 0, 0, &[10, 12, 14, 15], &[138, 140, 128, 127]);
    row::<u8>(&[-1], 0, 0, &[5, 3], &[133, 131]);
    row::<u8>(&[0], -1, 1, &[9, 9], &[137, 137]);
    row::<u8>(&[2], 0, 0, &[200, 150], &[72, 134]);
    row::<u8>(&[3], 1, 2, &[7, 6], &[135, 129]);
    row::<u8>(&[1], 0, 0, &[255, 0], &[127, 129]);
    row::<u8>(&[-1, 2], 0, 0, &[4, 5], &[132, 133]);
    row::<u16>(&[1], 0, 0, &[1000, 1003], &[33768, 32771]);
    row::<u32>(&[1], 0, 0, &[0, 4294967295], &[2147483648, 2147483647]);
}

#[test]
fn order_6_goes_two_ways() {
    for way in [Way::Chosen, Way::General, Way::OrderSix] {
        let (mut state, mut piece) = ([1u8, 2, 3, 4, 5, 6], [129]);
        Config::new(0, 0, &[0, 0, 0, 0, 0, 1]).decode_by(way, &mut state, &mut piece).unwrap();
        assert_eq!((state, piece), ([2, 3, 4, 5, 6, 7], [1]), "{way:?}");
    }
    let (mut state, mut piece) = ([1u8], [129]);
    assert_eq!(Config::new(0, 0, &[1]).decode_by(Way::OrderSix, &mut state, &mut piece), Err(Refusal::BadOrder));
    assert_eq!((state, piece), ([1], [129]));
}

#[test]
fn an_empty_piece_changes_nothing() {
    let mut state = [10u8, 12];
    Config::new(0, 0, &[-1, 2]).decode(&mut state, &mut []).unwrap();
    assert_eq!(state, [10, 12]);
}

#[test]
fn constants_are_the_widths() {
    assert_eq!((u8::WIDTH, u8::ACCUMULATOR, u8::GREATEST, <u8 as Sample>::MID), (8, 16, 255, 128));
    assert_eq!((u16::WIDTH, u16::ACCUMULATOR, u16::GREATEST, <u16 as Sample>::MID), (16, 32, 65535, 32768));
    assert_eq!((u32::WIDTH, u32::ACCUMULATOR, u32::GREATEST, <u32 as Sample>::MID), (32, 64, u32::MAX, 1 << 31));
}

/// The refusal of encoding and of decoding, which change nothing.
fn refused<T: Sample>(config: Config, samples: usize, places: usize) -> (Option<Refusal>, Option<Refusal>) {
    let (mut buffer, mut state) = (vec![T::GREATEST; samples], vec![T::MID; places]);
    let encoding = config.encode(&mut buffer, &mut state).err();
    if encoding.is_some() {
        assert_eq!((&buffer, &state), (&vec![T::GREATEST; samples], &vec![T::MID; places]));
    }
    let (mut buffer, mut state) = (vec![T::GREATEST; samples], vec![T::MID; places]);
    let decoding = config.decode(&mut state, &mut buffer).err();
    if decoding.is_some() {
        assert_eq!((&buffer, &state), (&vec![T::GREATEST; samples], &vec![T::MID; places]));
    }
    (encoding, decoding)
}

#[test]
fn every_refusal_of_coding() {
    let both = |refusal| (Some(refusal), Some(refusal));
    let long = [0; 33];
    for order in [0, 33, usize::MAX] {
        let config = Config { order, shift: 99, bias: i64::MIN, weights: &long };
        assert_eq!(refused::<u8>(config, 3, 3), both(Refusal::BadOrder), "order {order}");
    }
    assert_eq!(refused::<u8>(Config::new(0, 0, &[]), 3, 0), both(Refusal::BadOrder));
    assert_eq!(refused::<u8>(Config::new(16, 0, &[1]), 3, 1), both(Refusal::BadShift));
    assert_eq!(refused::<u16>(Config::new(32, 0, &[1]), 3, 1), both(Refusal::BadShift));
    assert_eq!(refused::<u32>(Config::new(64, 0, &[1]), 3, 1), both(Refusal::BadShift));
    assert_eq!(refused::<u8>(Config::new(15, 0, &[1]), 3, 1), (None, None));
    assert_eq!(refused::<u16>(Config::new(31, 0, &[1]), 3, 1), (None, None));
    assert_eq!(refused::<u32>(Config::new(63, 0, &[1]), 3, 1), (None, None));
    assert_eq!(refused::<u8>(Config { order: 2, shift: 0, bias: 0, weights: &[1] }, 3, 2), both(Refusal::BadLength));
    assert_eq!(refused::<u8>(Config::new(0, 0, &[1]), 3, 2), both(Refusal::BadLength));
    assert_eq!(refused::<u8>(Config::new(0, 128, &[128]), 3, 1), both(Refusal::Overflows));
    assert_eq!(refused::<u8>(Config::new(0, 127, &[128]), 3, 1), (None, None));
    assert_eq!(refused::<u16>(Config::new(0, 0, &[32769]), 3, 1), both(Refusal::Overflows));
    assert_eq!(refused::<u32>(Config::new(0, i64::MIN, &[0]), 3, 1), both(Refusal::Overflows));
    assert_eq!(refused::<u8>(Config::new(0, 0, &[1, 1]), 1, 2), (Some(Refusal::TooFewSamples), None));
}

#[test]
fn the_accumulator_rule_tests_no_order_and_no_shift() {
    assert_eq!(Config::new(99, 127, &[128]).admits::<u8>(), Ok(()));
    assert_eq!(Config::new(0, 128, &[128]).admits::<u8>(), Err(Refusal::Overflows));
    assert_eq!(Config::new(0, 128, &[128]).admits::<u16>(), Ok(()));
    assert_eq!(Config::new(0, 0, &[]).admits::<u8>(), Ok(()));
    assert_eq!(Config::new(0, 32767, &[0; 40]).admits::<u8>(), Ok(()));
    assert_eq!(Config::new(0, 0, &[i32::MIN; 40]).admits::<u32>(), Err(Refusal::Overflows));
}

/// Numbers that look like chance.
struct Chance(u64);

impl Chance {
    fn next(&mut self) -> u64 {
        self.0 ^= self.0 << 13;
        self.0 ^= self.0 >> 7;
        self.0 ^= self.0 << 17;
        self.0 >> 3
    }

    fn below(&mut self, n: u64) -> u64 {
        self.next() % n
    }
}

/// The rule in numbers that never wrap: the whole buffer after encoding.
fn model(width: u32, config: &Config, samples: &[u64]) -> Vec<u64> {
    let place = |i: usize| {
        let mut prediction = 0;
        if i >= config.order {
            let window = &samples[i - config.order..i];
            let sum: i128 = window.iter().zip(config.weights).map(|(&x, &w)| x as i128 * w as i128).sum();
            prediction = (sum + config.bias as i128).max(0) >> config.shift;
        }
        (samples[i] as i128 - prediction + (1 << (width - 1))).rem_euclid(1 << width) as u64
    };
    (0..samples.len()).map(place).collect()
}

/// Little-endian bytes of the entries.
fn bytes<T: Sample + Into<u64>>(entries: &[T]) -> Vec<u8> {
    entries.iter().flat_map(|&x| x.into().to_le_bytes().into_iter().take(T::WIDTH as usize / 8)).collect()
}

fn against_the_model<T: Sample + Into<u64> + TryFrom<u64>>(chance: &mut Chance)
where
    <T as TryFrom<u64>>::Error: std::fmt::Debug,
{
    let greatest: u64 = T::GREATEST.into();
    for _ in 0..2000 {
        let order = [6, 1 + chance.below(MAX_ORDER as u64) as usize][chance.below(2) as usize];
        let most = (1i64 << (T::WIDTH - 1)) / order as i64;
        let weights: Vec<i32> =
            (0..order).map(|_| (chance.below(2 * most as u64) as i64 - most).clamp(-(1 << 31) + 1, 1 << 30) as i32).collect();
        let config = Config::new(
            chance.below(T::ACCUMULATOR as u64) as u32,
            chance.below(1 << T::WIDTH) as i64 - (1 << (T::WIDTH - 1)),
            &weights,
        );
        let list: Vec<u64> = (0..order as u64 + chance.below(90)).map(|_| chance.next() & greatest).collect();
        let samples: Vec<T> = list.iter().map(|&x| T::try_from(x).unwrap()).collect();
        if config.admits::<T>().is_err() {
            continue;
        }
        let right: Vec<T> = model(T::WIDTH, &config, &list).into_iter().map(|x| T::try_from(x).unwrap()).collect();
        row(&weights, config.bias, config.shift, &samples, &right);

        // The same over bytes, cut at chance, by both ways.
        let weight_bytes: Vec<u8> = weights.iter().flat_map(|w| w.to_le_bytes()).collect();
        let byte_config = Config::over_bytes(config.shift, config.bias, &weight_bytes);
        let entry = T::WIDTH as usize / 8;
        let (mut coded, mut state) = (bytes(&samples), vec![0; order * entry]);
        assert_eq!(
            byte_config.encode_bytes::<T>(&mut coded, &mut state).map(|residuals| residuals.to_vec()),
            Ok(bytes(&right[order..]))
        );
        assert_eq!((&coded, &state), (&bytes(&right), &bytes(&samples[..order])));
        let mut rest = &mut coded[order * entry..];
        while !rest.is_empty() {
            let (piece, later) = rest.split_at_mut(entry * chance.below(rest.len() as u64 / entry as u64 + 1) as usize);
            byte_config.decode_bytes_by::<T>(WAYS[chance.below(2) as usize], &mut state, piece).unwrap();
            rest = later;
        }
        assert_eq!([&coded[order * entry..], &state].concat(), bytes(&samples));
    }
}

#[test]
fn random_calls_go_by_the_rule() {
    let mut chance = Chance(88172645463325252);
    against_the_model::<u8>(&mut chance);
    against_the_model::<u16>(&mut chance);
    against_the_model::<u32>(&mut chance);
}

#[test]
fn ragged_bytes_are_refused() {
    let weights = [1, 0, 0, 0];
    let config = Config::over_bytes(0, 0, &weights);
    assert_eq!(config.order, 1);
    assert_eq!(config.encode_bytes::<u16>(&mut [1, 0, 2], &mut [0; 2]), Err(Refusal::BadLength));
    assert_eq!(config.decode_bytes::<u16>(&mut [0; 3], &mut [1, 0]), Err(Refusal::BadLength));
    assert_eq!(Config::over_bytes(0, 0, &[1, 0, 0, 0, 0]).encode_bytes::<u16>(&mut [1, 0], &mut [0; 2]), Err(Refusal::BadLength));
    assert_eq!(config.encode_bytes::<u16>(&mut [1, 0, 2, 0], &mut [0; 2]).map(|r| r.to_vec()), Ok(vec![1, 128]));
}

#[test]
fn raw_answers_are_the_numbers() {
    let config = Config { order: 2, shift: 0, bias: 0, weights: &[1] };
    assert_eq!(raw::encode(&config, &mut [1u16, 2, 3], &mut [0, 0]), 4);
    assert_eq!(raw::decode(Way::General, &Config::new(0, 0, &[1]), &mut [1u32], &mut [1, 2]), 0);
    assert_eq!(raw::admits::<u8>(128, &[128]), 3);
}

/// A slice of length 0 may have a null pointer, as C++ gives one.
#[test]
fn null_is_a_slice_of_nothing() {
    use std::ptr::{null, null_mut};
    let weights = [1i32];
    let mut state = [7u16];
    unsafe {
        assert_eq!(sys::claspotter_admits_16(5, null(), 0), 0);
        assert_eq!(sys::claspotter_encode_u16(1, 0, 0, null(), 0, null_mut(), 0, null_mut(), 0), 4);
        assert_eq!(sys::claspotter_encode_u16(1, 0, 0, weights.as_ptr(), 1, null_mut(), 0, state.as_mut_ptr(), 1), 5);
        assert_eq!(sys::claspotter_decode_u16(1, 0, 0, weights.as_ptr(), 1, state.as_mut_ptr(), 1, null_mut(), 0), 0);
        assert_eq!(sys::claspotter_decode_u16(1, 0, 0, weights.as_ptr(), 1, null_mut(), 0, null_mut(), 0), 4);
    }
    assert_eq!(state, [7]);
}

#[test]
fn the_library_has_this_version() {
    let mut parts = env!("CARGO_PKG_VERSION").split('.').map(|part| part.parse::<u32>().unwrap());
    let mut part = || parts.next().unwrap();
    assert_eq!(raw::version(), part() * 1_000_000 + part() * 1000 + part());
}
