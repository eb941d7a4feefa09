//! Legalising lowers no index more than it must: over seeded norms, in both
//! sent orders, the result is legal, no index is raised, and each is as high as
//! the other indices of the input allow. Then three loud peaks with numbers.

use g719_compare::calls::{Calls, SIDES};
use g719_compare::cases::norms_case;
use g719_reference::pieces::sent_order;
use g719_reference::types::BANDS;

const SEEDS: u64 = 20_000;

/// What is sent: the first index at most 31, all at most 39, each difference
/// −15 to 16.
fn is_legal(transient: bool, norms: &[u8; BANDS]) -> bool {
    let sent = sent_order(transient).map(|band| i32::from(norms[band]));
    let close = |pair: &[i32]| (-15..=16).contains(&(pair[1] - pair[0]));
    sent[0] <= 31 && sent.iter().all(|&index| index <= 39) && sent.windows(2).all(close)
}

/// The highest index that each place of the input allows, told without passes:
/// 15 a place more than one sent later, 16 a place more than one sent earlier.
fn as_high_as_allowed(transient: bool, norms: &[u8; BANDS]) -> [u8; BANDS] {
    let order = sent_order(transient);
    let mut highest = [0; BANDS];
    for (i, &band) in order.iter().enumerate() {
        let allowed = order.iter().enumerate().map(|(p, &other)| {
            let index = usize::from(norms[other]).min(if p == 0 { 31 } else { 39 });
            index + 15 * p.saturating_sub(i) + 16 * i.saturating_sub(p)
        });
        highest[band] = allowed.min().unwrap() as u8;
    }
    highest
}

#[test]
fn no_more_than_it_must() {
    let (mut lowered, mut unchanged) = (0, 0);
    let cases = (0..SEEDS).map(norms_case);
    for case in cases.filter(|case| case.norms.iter().all(|&norm| norm <= 39)) {
        let (transient, norms) = (case.transient, &case.norms);
        for calls in SIDES {
            let answer = (calls.legalise)(transient, norms);
            let result = answer.norms;
            let context = format!("{}, {case:?}", calls.side);
            assert_eq!(answer.reply, 0, "{context}");
            assert!(is_legal(transient, &result), "{context}");
            assert_eq!((calls.choose_flag_n)(transient, &result).reply, 0, "{context}");
            assert!(result.iter().zip(norms).all(|(after, before)| after <= before), "{context}");
            assert_eq!(result, as_high_as_allowed(transient, norms), "{context}");
            assert_eq!((calls.legalise)(transient, &result), answer, "twice: {context}");
            assert_eq!(result == *norms, is_legal(transient, norms), "{context}");
            for band in (0..BANDS).filter(|&band| result[band] < norms[band]) {
                let mut higher = result;
                higher[band] += 1;
                assert!(!is_legal(transient, &higher), "band {band} one higher: {context}");
                lowered += 1;
            }
            unchanged += u32::from(result == *norms);
        }
    }
    println!("{lowered} indices lowered, {unchanged} norms unchanged");
    assert!(lowered > 0 && unchanged > 0);
}

/// Which bands fall, and to what.
fn falls(calls: &Calls, transient: bool, norms: &[u8; BANDS]) -> Vec<(usize, u8)> {
    let answer = (calls.legalise)(transient, norms);
    assert_eq!(answer.reply, 0);
    let fell = (0..BANDS).filter(|&band| answer.norms[band] != norms[band]);
    fell.map(|band| (band, answer.norms[band])).collect()
}

/// docs/LOUD-PEAKS.md has these numbers.
#[test]
fn three_loud_peaks() {
    let mut peak = [36; BANDS];
    (peak[0], peak[20]) = (31, 0);
    let mut two = [39; BANDS];
    (two[10], two[13]) = (5, 0);
    for calls in SIDES {
        assert_eq!(falls(calls, false, &peak), [(18, 30), (19, 15), (21, 16), (22, 32)]);
        assert_eq!(falls(calls, true, &peak), [(9, 30), (16, 15), (24, 16), (28, 32)]);
        let between = [(0, 31), (8, 35), (9, 20), (11, 21), (12, 15), (14, 16), (15, 32)];
        assert_eq!(falls(calls, false, &two), between);
    }
}
