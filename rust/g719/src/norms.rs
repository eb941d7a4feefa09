//! Norms: the FlagN choice, legal norms, weights, the sharing of bits.

use crate::refusal::{answered, Refusal};
use crate::{raw, BANDS};

/// Weights and starting scores of the bands.
#[derive(Clone, Copy, Debug, PartialEq, Eq, Hash)]
pub struct Weights {
    /// 0 to 64.
    pub weights: [u8; BANDS],
    /// 16 × (34 − index) + weight.
    pub scores: [i16; BANDS],
}

/// How a budget is shared.
#[derive(Clone, Copy, Debug, PartialEq, Eq, Hash)]
pub struct Shares {
    /// Rates of the bands, 0 to 9.
    pub rates: [u8; BANDS],
    /// Bits of the budget that no band could take.
    pub left: u16,
    /// Rounds of the contest that gave the rates: in each a band gets a step of its rate or is put out.
    pub rounds: u16,
}

/// Whether the 43 words of the differences are shorter than 43 fixed codes: the FlagN to choose.
///
/// Refused: [`OutOfRange`](Refusal::OutOfRange) for a norm over 39 or a first one over 31,
/// [`FarApart`](Refusal::FarApart).
pub fn choose_flag_n(transient: bool, norms: &[u8; BANDS]) -> Result<bool, Refusal> {
    let choice = raw::g719_choose_flag_n(transient.into(), norms);
    answered(choice.reply)?;
    Ok(choice.flag != 0)
}

/// The greatest norms, nowhere above the given ones, that a frame of this kind can carry: none is
/// raised, none lowered more than it must be, and norms that can be carried come back as they are.
///
/// Refused: [`OutOfRange`](Refusal::OutOfRange) for a norm over 39.
///
/// ```
/// let mut norms = [39; g719::BANDS];
/// norms[10] = 0; // a peak: its neighbours are taken along
/// let legal = g719::legalise(false, &norms)?;
/// assert_eq!(legal[8..13], [30, 15, 0, 16, 32]);
/// # Ok::<(), g719::Refusal>(())
/// ```
pub fn legalise(transient: bool, norms: &[u8; BANDS]) -> Result<[u8; BANDS], Refusal> {
    let legal = raw::g719_legalise(transient.into(), norms);
    answered(legal.reply)?;
    Ok(legal.norms)
}

/// Weights and starting scores. Refused: [`OutOfRange`](Refusal::OutOfRange) for a norm over 39.
pub fn weigh(transient: bool, norms: &[u8; BANDS]) -> Result<Weights, Refusal> {
    let raw::Weights {
        reply,
        weights,
        scores,
    } = raw::g719_weigh(transient.into(), norms);
    answered(reply)?;
    Ok(Weights { weights, scores })
}

/// Rates, bits left and rounds; `wide` says whether bands 36 to 43 compete.
///
/// The rounds are as many as the rates add up to, and one for each competing band that ends below rate 9: at most
/// `budget / 8 + 44`, and never more than [`MOST_ROUNDS`](crate::MOST_ROUNDS).
///
/// Refused: [`OutOfRange`](Refusal::OutOfRange) for a norm over 39 or a budget over 2,560.
///
/// ```
/// let shares = g719::allot(false, true, &[20; g719::BANDS], 414)?;
/// assert_eq!((shares.rates[0], shares.rates[29], shares.rates[30], shares.left), (2, 1, 0, 6));
/// assert_eq!(shares.rounds, 75); // 31 steps, and 44 bands put out
/// # Ok::<(), g719::Refusal>(())
/// ```
pub fn allot(transient: bool, wide: bool, norms: &[u8; BANDS], budget: u32) -> Result<Shares, Refusal> {
    let raw::Shares {
        reply,
        rates,
        left,
        rounds,
    } = raw::g719_allot(transient.into(), wide.into(), norms, budget);
    answered(reply)?;
    Ok(Shares { rates, left, rounds })
}
