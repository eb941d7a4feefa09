//! The examples that need whole frames, on both sides.

use g719_compare::calls::{Calls, SIDES};
use g719_reference::types::{Parts, Record};

/// Stationary, 80 bytes, all indices 20, FlagL 1.
fn record(flag_n: bool, tail_bits: u16) -> Record {
    Record {
        mode: 0,
        transient: false,
        flag_l: true,
        flag_n,
        flag_c: false,
        norms: [20; 44],
        noise: 2,
        tail_bits,
    }
}

fn prefix_20_alone(calls: &Calls) {
    let reading = (calls.read)(&[0x20], &mut [0; 800], &mut [0; 320]);
    assert_eq!((reading.reply, reading.next), (4, 0));
}

fn all_indices_20(calls: &Calls) {
    for (flag_n, tail_bits, rates) in [(false, 6, 414 - 6), (true, 4, 500 - 4)] {
        let record = record(flag_n, tail_bits);
        let mut out = [0xee; 90];
        let writing = (calls.write)(&record, &[0; 800], &[0; 320], &mut out);
        assert_eq!((writing.reply, writing.next), (0, 81));
        assert_eq!((out[0], &out[81..]), (0x20, &[0xee; 9][..]));
        if flag_n {
            assert_eq!(out[1..6], [0x6a, 0x6d, 0xb6, 0xdb, 0x6d]);
        }
        // Noise stands directly after the codes, before the tail.
        let head = 640 - 2 - rates - usize::from(tail_bits);
        let noise_at = head + rates;
        assert_eq!(out[1 + noise_at / 8] << (noise_at % 8) >> 6, 2);
    }
    let choice = (calls.choose_flag_n)(false, &[20; 44]);
    assert_eq!((choice.reply, choice.flag), (0, true));
}

fn layout_of_all_indices_20(calls: &Calls) {
    for (flag_n, budget, tail_bits) in [(false, 414, 6), (true, 500, 4)] {
        let parts = (calls.layout)(&record(flag_n, 0), &[0; 800]);
        let rates = std::array::from_fn(|band| match band {
            0 if !flag_n => 2,
            _ => u8::from(band < if flag_n { 34 } else { 30 }),
        });
        let wanted = Parts {
            reply: 0,
            budget,
            rates,
            code_bits: budget - tail_bits,
            tail_bits,
        };
        assert_eq!(parts, wanted);
    }
    // Eight words of one bit for eight codes of two leave eight bits more.
    let words = Record {
        flag_c: true,
        ..record(false, 0)
    };
    let parts = (calls.layout)(&words, &[0; 800]);
    assert_eq!((parts.budget, parts.code_bits, parts.tail_bits), (414, 400, 14));
}

/// A record that comes to be wrong in all ways, one after the other.
fn order_of_the_layout(calls: &Calls) {
    let mut faulty = Record {
        flag_c: true,
        noise: 255,
        ..record(false, u16::MAX)
    };
    let mut codes = [0; 801];
    codes[800] = u16::MAX;
    let reply = |record: &Record, codes: &[u16]| (calls.layout)(record, codes).reply;
    assert_eq!(reply(&faulty, &codes), 0);
    codes[..8].fill(2);
    assert_eq!(reply(&faulty, &codes), 7);
    codes[1] = 4;
    assert_eq!(reply(&faulty, &codes), 12);
    faulty.norms[5] = 3;
    assert_eq!(reply(&faulty, &codes), 9);
    faulty.norms[43] = 40;
    assert_eq!(reply(&faulty, &codes), 8);
    faulty.norms[43] = 20;
    faulty.norms[0] = 32;
    assert_eq!(reply(&faulty, &codes), 8);
    assert_eq!(reply(&faulty, &codes[..799]), 10);
    faulty.mode = 20;
    assert_eq!(reply(&faulty, &[]), 8);
}

fn rooms_come_before_bytes(calls: &Calls) {
    assert_eq!((calls.read)(&[], &mut [0; 799], &mut [0; 320]).reply, 10);
    assert_eq!((calls.read)(&[], &mut [0; 800], &mut [0; 319]).reply, 10);
    assert_eq!((calls.read)(&[], &mut [0; 800], &mut [0; 320]).reply, 1);
}

fn order_of_the_writer(calls: &Calls) {
    let sound = record(false, 6);
    let reply =
        |record: &Record, codes: &[u16], tail: &[u8]| (calls.write)(record, codes, tail, &mut [0; 81]).reply;
    let wide = [0x8000; 800];
    let padded = [0xff; 320];
    let mut faulty = Record {
        mode: 20,
        noise: 4,
        ..sound
    };
    faulty.norms[5] = 3;
    assert_eq!(reply(&faulty, &[], &padded), 8);
    faulty.mode = 0;
    assert_eq!(reply(&faulty, &[], &padded), 10);
    assert_eq!(reply(&faulty, &wide, &padded), 8);
    faulty.noise = 0;
    assert_eq!(reply(&faulty, &wide, &padded), 9);
    faulty.norms[5] = 20;
    assert_eq!(reply(&faulty, &wide, &padded), 12);
    assert_eq!(reply(&faulty, &[0; 800], &padded), 13);
    assert_eq!(reply(&faulty, &[0; 800], &[0; 320]), 0);
    // Eight words of three bits for eight codes of two go past six bits left.
    let mut codes = [0; 800];
    codes[..8].fill(2);
    faulty.flag_c = true;
    assert_eq!(reply(&faulty, &codes, &padded), 7);
}

fn equal_cost_chooses_fixed_codes(calls: &Calls) {
    let flag = |codes: &[u16]| (calls.choose_flag_c)(&record(false, 6), codes).flag;
    let mut codes = [0; 800];
    assert!(flag(&codes));
    codes[..8].fill(3);
    assert!(!flag(&codes));
    codes[0] = 0;
    assert!(flag(&codes));
}

#[test]
fn examples() {
    for calls in SIDES {
        prefix_20_alone(calls);
        all_indices_20(calls);
        layout_of_all_indices_20(calls);
        order_of_the_layout(calls);
        rooms_come_before_bytes(calls);
        order_of_the_writer(calls);
        equal_cost_chooses_fixed_codes(calls);
    }
}
