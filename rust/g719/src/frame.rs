//! Stored frames: the record, read and written.

use crate::raw::{self, slices};
use crate::refusal::{answered, Refusal};
use crate::{choose_flag_n, Mode, BANDS, CODES, TAIL_BYTES};

/// What a frame holds beside its codes and its tail.
#[derive(Clone, Copy, Debug, PartialEq, Eq, Hash)]
pub struct Record {
    /// The size of the frame.
    pub mode: Mode,
    /// IsTransient: the frame's norms are sent in another order and its bands weighed by fours; it has no
    /// noise level.
    pub transient: bool,
    /// FlagL: at 80 bytes, bands 36 to 43 compete for bits.
    pub flag_l: bool,
    /// FlagN: norm differences are sent as words of Table 16.
    pub flag_n: bool,
    /// FlagC: codes at rates 2 to 5 are sent as words of Table 20.
    pub flag_c: bool,
    /// Norm indices in band order, 0 to 39, smaller is louder.
    pub norms: [u8; BANDS],
    /// The noise level, 0 to 3; 0 in a transient frame.
    pub noise: u8,
    /// Bits of the tail.
    pub tail_bits: u16,
}

/// How the bits of a record's frame part.
#[derive(Clone, Copy, Debug, PartialEq, Eq, Hash)]
pub struct Layout {
    /// Bits for codes and tail.
    pub budget: u16,
    /// Rates of the bands, 0 to 9: how the codes of each are held.
    pub rates: [u8; BANDS],
    /// Bits that the codes take, as FlagC says they are sent.
    pub code_bits: u16,
    /// Bits that are left for the tail.
    pub tail_bits: u16,
}

/// A frame with data: its record, 800 codes and 320 tail bytes.
///
/// ```
/// use g719::{Frame, Mode, BANDS, FRAME_BYTES};
///
/// let frame = Frame::new(Mode::new(3).unwrap(), false, &[20; BANDS])?;
/// let mut stored = [0; FRAME_BYTES];
/// let size = frame.write(&mut stored)?;
/// assert_eq!(size, 111); // prefix byte and body
///
/// // what was written is read again, to the same frame
/// assert_eq!(Frame::read(&stored[..size])?, Some(frame));
/// # Ok::<(), g719::Refusal>(())
/// ```
#[derive(Clone, Debug, PartialEq, Eq, Hash)]
pub struct Frame {
    /// Size, flags, norms, noise, tail bits.
    pub record: Record,
    /// One number for each coefficient, in band order. By the band's rate: 0 nothing, 1 an index of 8 bits in
    /// the first of each eight places, 2 to 9 a number of that many bits in each place; unused places are 0.
    pub codes: [u16; CODES],
    /// The tail's bits from the top of the first byte on, the rest 0.
    pub tail: [u8; TAIL_BYTES],
}

impl Record {
    /// Reads the frame at the start of `src` into lent rooms of 800 codes and 320 tail bytes; none where it
    /// is an empty one.
    ///
    /// Only a frame with data changes the rooms, and only as much of them. [`Record::size`] tells where the
    /// next frame begins; behind an empty one it is 1. Refused, in this order:
    /// [`ShortRoom`](Refusal::ShortRoom), [`NoByte`](Refusal::NoByte), [`Marked`](Refusal::Marked),
    /// [`Reserved`](Refusal::Reserved), [`Cut`](Refusal::Cut), [`NormOutside`](Refusal::NormOutside), then
    /// [`NoWord`](Refusal::NoWord) or [`PastBudget`](Refusal::PastBudget), whichever is met first.
    pub fn read(src: &[u8], codes: &mut [u16], tail: &mut [u8]) -> Result<Option<Record>, Refusal> {
        Record::answered(&slices::read(src, codes, tail))
    }

    /// Writes a stored frame from the first 800 codes and the first 320 tail bytes; answers the bytes
    /// written.
    ///
    /// Refused, in this order: [`ShortRoom`](Refusal::ShortRoom), [`OutOfRange`](Refusal::OutOfRange),
    /// [`FarApart`](Refusal::FarApart), [`WideCode`](Refusal::WideCode), [`PastBudget`](Refusal::PastBudget),
    /// [`WrongTail`](Refusal::WrongTail). Then `out` is as it was.
    pub fn write(&self, codes: &[u16], tail: &[u8], out: &mut [u8]) -> Result<usize, Refusal> {
        let writing = slices::write(&self.to_raw(), codes, tail, out);
        answered(writing.reply)?;
        Ok(writing.next)
    }

    /// How the bits of this record's frame part. Of `codes` the first 800 are looked at; the record's noise
    /// and tail bits are not.
    ///
    /// Refused as [`Record::write`] is, save for `out`, noise and tail.
    pub fn layout(&self, codes: &[u16]) -> Result<Layout, Refusal> {
        let parts = slices::layout(&self.to_raw(), codes);
        answered(parts.reply)?;
        Ok(Layout {
            budget: parts.budget,
            rates: parts.rates,
            code_bits: parts.code_bits,
            tail_bits: parts.tail_bits,
        })
    }

    /// Whether words cost less than fixed codes over the bands at rates 2 to 5: the FlagC to choose.
    ///
    /// Noise, tail bits and the record's own FlagC are not looked at.
    pub fn choose_flag_c(&self, codes: &[u16]) -> Result<bool, Refusal> {
        let choice = slices::choose_flag_c(&self.to_raw(), codes);
        answered(choice.reply)?;
        Ok(choice.flag != 0)
    }

    /// Bytes of the stored frame, prefix byte and body.
    #[must_use]
    pub const fn size(&self) -> usize {
        1 + self.mode.body_bytes()
    }

    pub(crate) fn to_raw(self) -> raw::Record {
        raw::Record {
            mode: self.mode.number(),
            transient: self.transient.into(),
            flag_l: self.flag_l.into(),
            flag_n: self.flag_n.into(),
            flag_c: self.flag_c.into(),
            norms: self.norms,
            noise: self.noise,
            tail_bits: self.tail_bits,
        }
    }

    /// The record of a frame that was read; none of an empty one.
    pub(crate) fn answered(reading: &raw::Reading) -> Result<Option<Record>, Refusal> {
        answered(reading.reply)?;
        let record = &reading.record;
        Ok((reading.reply == raw::reply::DONE).then(|| Record {
            mode: Mode::answered(record.mode),
            transient: record.transient != 0,
            flag_l: record.flag_l != 0,
            flag_n: record.flag_n != 0,
            flag_c: record.flag_c != 0,
            norms: record.norms,
            noise: record.noise,
            tail_bits: record.tail_bits,
        }))
    }
}

impl Frame {
    /// A frame of these norms whose codes are all 0: FlagN as it is shorter, FlagC 0, FlagL 1, no noise, the
    /// tail's bits counted.
    ///
    /// Refused: [`OutOfRange`](Refusal::OutOfRange) for a norm over 39 or a first one over 31,
    /// [`FarApart`](Refusal::FarApart). Norms that are refused become such as a frame can carry by
    /// [`legalise`](crate::legalise).
    pub fn new(mode: Mode, transient: bool, norms: &[u8; BANDS]) -> Result<Frame, Refusal> {
        let mut frame = Frame {
            record: Record {
                mode,
                transient,
                flag_l: true,
                flag_n: choose_flag_n(transient, norms)?,
                flag_c: false,
                norms: *norms,
                noise: 0,
                tail_bits: 0,
            },
            codes: [0; CODES],
            tail: [0; TAIL_BYTES],
        };
        frame.record.tail_bits = frame.layout()?.tail_bits;
        Ok(frame)
    }

    /// Reads the frame at the start of `src`; none where it is an empty one, whose next frame begins at byte
    /// 1.
    ///
    /// Refused as [`Record::read`] is, save for rooms.
    pub fn read(src: &[u8]) -> Result<Option<Frame>, Refusal> {
        let (mut codes, mut tail) = ([0; CODES], [0; TAIL_BYTES]);
        let record = Record::read(src, &mut codes, &mut tail)?;
        Ok(record.map(|record| Frame { record, codes, tail }))
    }

    /// Writes the stored frame; answers the bytes written. Refused as [`Record::write`] is.
    pub fn write(&self, out: &mut [u8]) -> Result<usize, Refusal> {
        self.record.write(&self.codes, &self.tail, out)
    }

    /// How the bits of the frame part: budget, rates, bits of codes and tail.
    ///
    /// ```
    /// use g719::{Frame, Mode, BANDS};
    /// let frame = Frame::new(Mode::new(0).unwrap(), false, &[20; BANDS])?;
    /// let layout = frame.layout()?;
    /// assert_eq!((layout.budget, layout.tail_bits), (500, 4));
    /// assert_eq!(layout.rates[..34], [1; 34]);
    /// # Ok::<(), g719::Refusal>(())
    /// ```
    pub fn layout(&self) -> Result<Layout, Refusal> {
        self.record.layout(&self.codes)
    }

    /// The FlagC to choose: whether words cost less than fixed codes.
    pub fn choose_flag_c(&self) -> Result<bool, Refusal> {
        self.record.choose_flag_c(&self.codes)
    }

    /// Bytes of the stored frame, prefix byte and body.
    #[must_use]
    pub const fn size(&self) -> usize {
        self.record.size()
    }
}

/// Writes an empty frame, one byte; answers 1. Refused: [`ShortRoom`](Refusal::ShortRoom).
pub fn write_empty(out: &mut [u8]) -> Result<usize, Refusal> {
    let writing = slices::write_empty(out);
    answered(writing.reply)?;
    Ok(writing.next)
}
