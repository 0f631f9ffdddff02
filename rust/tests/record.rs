//! Records, quantising and refusals through the wrapper.

use claspotter::{quantise, raw, Config, Conv1, Quantised, Record, Refusal, MAX_ORDER, MAX_RECORD_BYTES};

fn conv1(order: usize) -> Conv1 {
    let mut weights = [0; MAX_ORDER];
    for (i, weight) in weights.iter_mut().enumerate().take(order) {
        *weight = (i as i32 - 7) * 40_000_001;
    }
    Conv1 { order, shift: 31, bias: i64::MIN, weights }
}

#[test]
fn records_are_read_as_they_were_written() {
    let records = [
        (Record::Nothing, 4),
        (Record::Consecutive { order: 7, secondary_uses_delta: true }, 8),
        (Record::Consecutive { order: 1, secondary_uses_delta: false }, 8),
        (Record::Lookback { window_n_log: 24, state_n_log: 15, secondary_uses_delta: true }, 14),
        (Record::Lookback { window_n_log: 1, state_n_log: 0, secondary_uses_delta: false }, 14),
        (Record::Conv1(conv1(1)), 78 + 32),
        (Record::Conv1(conv1(32)), 78 + 32 * 32),
    ];
    for (record, bits) in records {
        let mut bytes = [0xFF; MAX_RECORD_BYTES + 1];
        assert_eq!(record.write(&mut bytes), Ok(bits));
        let used = bits.div_ceil(8);
        assert!(bytes[used..].iter().all(|&byte| byte == 0xFF), "later bytes stay");
        assert_eq!(bytes[used - 1].checked_shr((bits - 8 * (used - 1)) as u32).unwrap_or(0), 0, "unused bits are cleared");
        assert_eq!(Record::read(&bytes, true), Ok((record, bits)));
        assert_eq!(Record::read(&bytes[..used], true), Ok((record, bits)));
        assert_eq!(Record::read(&bytes[..used - 1], true), Err(Refusal::BytesEnd));
        let mut short = vec![0x55; used - 1];
        assert_eq!(record.write(&mut short), Err(Refusal::NoRoom));
        assert_eq!(short, vec![0x55; used - 1]);
    }
}

#[test]
fn every_refusal_of_records() {
    assert_eq!(Record::read(&[4], true), Err(Refusal::UnknownVariant));
    assert_eq!(Record::read(&[1], true), Err(Refusal::BadRecord));
    assert_eq!(Record::read(&[], true), Err(Refusal::BytesEnd));
    let mut bytes = [0; MAX_RECORD_BYTES];
    let lookback = |window_n_log, state_n_log| Record::Lookback { window_n_log, state_n_log, secondary_uses_delta: false };
    for (record, refusal) in [
        (Record::Conv1(Conv1 { order: 0, ..conv1(1) }), Refusal::BadOrder),
        (Record::Conv1(Conv1 { order: 33, ..conv1(1) }), Refusal::BadOrder),
        (Record::Conv1(Conv1 { order: usize::MAX, ..conv1(1) }), Refusal::BadOrder),
        (Record::Conv1(Conv1 { shift: 32, ..conv1(1) }), Refusal::UnfitField),
        (Record::Consecutive { order: 0, secondary_uses_delta: false }, Refusal::BadRecord),
        (Record::Consecutive { order: 8, secondary_uses_delta: false }, Refusal::UnfitField),
        (lookback(25, 0), Refusal::BadRecord),
        (lookback(1, 2), Refusal::BadRecord),
        (lookback(0, 0), Refusal::UnfitField),
    ] {
        assert_eq!(record.write(&mut bytes), Err(refusal), "{record:?}");
        assert_eq!(bytes, [0; MAX_RECORD_BYTES]);
    }
}

#[test]
fn old_files_hold_only_an_order() {
    assert_eq!(Record::read(&[0], false), Ok((Record::Nothing, 3)));
    assert_eq!(Record::read(&[0xFD], false), Ok((Record::Consecutive { order: 5, secondary_uses_delta: false }, 3)));
}

#[test]
fn a_configuration_goes_through_a_record() {
    let config = Config::new(3, -9, &[-1, 2]);
    let held = Conv1::try_from(&config).unwrap();
    assert_eq!(held.config(), config);
    assert_eq!(Conv1::try_from(&Config::new(3, -9, &[])), Err(Refusal::BadOrder));
    assert_eq!(Conv1::try_from(&Config::new(3, -9, &[0; 33])), Err(Refusal::BadOrder));
    assert_eq!(Conv1::try_from(&Config { order: 3, ..config }), Err(Refusal::BadLength));
}

#[test]
fn raw_records_take_32_places() {
    let (mut numbers, mut bits) = (raw::Numbers { variant: 9, ..Default::default() }, 9);
    for places in [0, 31, 33] {
        let mut weights = vec![5; places];
        assert_eq!(raw::read_record(&[0], true, &mut numbers, &mut weights, &mut bits), 4);
        assert_eq!((numbers, bits, weights), (raw::Numbers::default(), 0, vec![5; places]));
    }
    let numbers = raw::Numbers { variant: 4, ..Default::default() };
    assert_eq!(raw::write_record(&numbers, &[], &mut [0], &mut bits), 8);
    let numbers = raw::Numbers { variant: 3, order: 2, ..Default::default() };
    assert_eq!(raw::write_record(&numbers, &[1], &mut [0; 64], &mut bits), 4);
}

#[test]
fn quantising() {
    let mut weights = [9; 1];
    assert_eq!(quantise(&[1.0], 0.0, 100u8, &mut weights), Ok(Quantised { shift: 5, bias: 0 }));
    assert_eq!(weights, [32]);
    assert_eq!(quantise(&[0.0], 126.99609375000001, 0u8, &mut weights), Ok(Quantised { shift: 6, bias: 8127 }));
    let mut weights = [9; 2];
    assert_eq!(quantise(&[f64::NAN, 0.0], 0.0, 100u8, &mut weights), Err(Refusal::NoConfiguration));
    assert_eq!(quantise(&[1e306, 0.0], 0.0, 100u16, &mut weights), Err(Refusal::NoConfiguration));
    assert_eq!(quantise(&[1.0], 0.0, 100u32, &mut weights), Err(Refusal::BadLength));
    assert_eq!(quantise(&[], 0.0, 100u32, &mut []), Err(Refusal::BadOrder));
    assert_eq!(quantise(&[0.0; 33], 0.0, 100u32, &mut [0; 33]), Err(Refusal::BadOrder));
    assert_eq!(weights, [9; 2]);
}

#[test]
fn refusals_have_their_numbers() {
    assert_eq!(Refusal::from_number(0), None);
    for number in 1..=11 {
        let refusal = Refusal::from_number(number).unwrap();
        assert_eq!(refusal.number(), number);
        assert_eq!(Refusal::check(number), Err(refusal));
        assert!(!matches!(refusal, Refusal::Unknown(_)));
        let said: Box<dyn std::error::Error> = Box::new(refusal);
        assert!(said.to_string().starts_with(&format!("refused {number}: ")), "{said}");
    }
    assert_eq!(Refusal::from_number(12), Some(Refusal::Unknown(12)));
    assert_eq!(Refusal::Unknown(12).number(), 12);
    assert_eq!(Refusal::check(0), Ok(()));
}
