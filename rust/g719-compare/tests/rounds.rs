//! The rounds of the contest: over every budget both sides count the same, the
//! rates tell how many they are, and both bounds hold. Each is reached.

use g719_compare::calls::{LIBRARY, REFERENCE, SIDES};
use g719_compare::cases::norms_case;
use g719_reference::types::{Shares, BANDS};

/// Norms that are tried with every budget.
const SWEPT: usize = 24;
const MOST_BUDGET: u32 = 2560;
const MOST_ROUNDS: u16 = 257;

fn bound(budget: u32) -> u16 {
    (budget / 8 + 44) as u16
}

/// A round for each step, and one for each competing band that ends below 9.
fn by_rates(shares: &Shares, wide: bool) -> u16 {
    let competing = if wide { BANDS } else { 36 };
    let below = shares.rates[..competing].iter().filter(|&&rate| rate < 9);
    shares.rates.iter().map(|&rate| u16::from(rate)).sum::<u16>() + below.count() as u16
}

#[test]
fn every_budget() {
    let cases = (0..).map(norms_case);
    let legal = cases.filter(|case| case.norms.iter().all(|&norm| norm <= 39));
    let (mut reached, mut most) = (0, 0);
    for (at, case) in legal.take(SWEPT).enumerate() {
        let wide = at % 2 == 0;
        for budget in 0..=MOST_BUDGET {
            let shares = (LIBRARY.allot)(case.transient, wide, &case.norms, budget);
            let plain = (REFERENCE.allot)(case.transient, wide, &case.norms, budget);
            assert_eq!(shares, plain, "norms {at}, budget {budget}");
            assert_eq!(shares.rounds, by_rates(&shares, wide), "norms {at}, budget {budget}");
            assert!(shares.rounds <= bound(budget).min(MOST_ROUNDS));
            reached += u32::from(shares.rounds == bound(budget));
            most = most.max(shares.rounds);
        }
    }
    println!("{SWEPT} norms: the bound is reached {reached} times, most rounds {most}");
    assert!(reached > 0);
}

/// The sixteen bands of 8 bits loud, the others silent: no step goes to a
/// longer band and none comes to rate 9 before all are at 8.
#[test]
fn an_eighth_of_the_budget_and_44() {
    let norms = std::array::from_fn(|band| if band < 16 { 0 } else { 39 });
    for budget in 0..=MOST_BUDGET {
        for calls in SIDES {
            let rounds = (calls.allot)(false, true, &norms, budget).rounds;
            assert_eq!(rounds == bound(budget), budget <= 1031, "budget {budget}");
        }
    }
}

/// All bands of 8 and 16 bits come to rate 8, and what they leave goes to bands
/// of 24.
#[test]
fn most_rounds() {
    let norms = std::array::from_fn(|band| [0, 14, 39][usize::from(band >= 24) + usize::from(band >= 36)]);
    for calls in SIDES {
        let shares = (calls.allot)(false, true, &norms, MOST_BUDGET);
        assert_eq!((shares.reply, shares.rounds), (0, MOST_ROUNDS));
        assert!(shares.rates[..24].iter().all(|&rate| rate >= 8));
    }
}
