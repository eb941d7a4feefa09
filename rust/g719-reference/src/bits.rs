//! Bits of a body, top bit first.

/// Reads numbers from a body.
pub(crate) struct BitReader<'a> {
    src: &'a [u8],
    at: usize,
}

impl<'a> BitReader<'a> {
    pub(crate) fn new(src: &'a [u8]) -> Self {
        BitReader { src, at: 0 }
    }

    /// Bits passed so far.
    pub(crate) fn at(&self) -> usize {
        self.at
    }

    /// The next `width` bits (1–16); bits past the end of the body are 0.
    pub(crate) fn peek(&self, width: u32) -> u16 {
        let rest = self.src.get(self.at / 8..).unwrap_or(&[]);
        let four = match rest.first_chunk::<4>() {
            Some(four) => *four,
            None => {
                let mut four = [0; 4];
                four[..rest.len()].copy_from_slice(rest);
                four
            }
        };
        ((u32::from_be_bytes(four) << (self.at % 8)) >> (32 - width)) as u16
    }

    pub(crate) fn skip(&mut self, width: u32) {
        self.at += width as usize;
    }

    /// Takes the next `width` bits (1–16).
    pub(crate) fn take(&mut self, width: u32) -> u16 {
        let value = self.peek(width);
        self.skip(width);
        value
    }

    pub(crate) fn take_flag(&mut self) -> bool {
        self.take(1) == 1
    }

    /// Fills `to` with `count` bits from the top and the rest with 0.
    pub(crate) fn take_bits(&mut self, count: usize, to: &mut [u8]) {
        to.fill(0);
        let (whole, part) = (count / 8, (count % 8) as u32);
        for byte in &mut to[..whole] {
            *byte = self.take(8) as u8;
        }
        if part > 0 {
            to[whole] = (self.take(part) << (8 - part)) as u8;
        }
    }
}

/// Writes numbers to a body.
pub struct BitWriter<'a> {
    out: &'a mut [u8],
    at: usize,
    held: u64,
    count: u32,
}

impl<'a> BitWriter<'a> {
    pub fn new(out: &'a mut [u8]) -> Self {
        BitWriter {
            out,
            at: 0,
            held: 0,
            count: 0,
        }
    }

    /// Bits written so far.
    pub fn at(&self) -> usize {
        8 * self.at + self.count as usize
    }

    /// Writes the low `width` bits (0–16) of `value`, which has no others.
    pub fn put(&mut self, value: u16, width: u32) {
        self.held = self.held << width | u64::from(value);
        self.count += width;
        if self.count >= 32 {
            self.count -= 32;
            let four = ((self.held >> self.count) as u32).to_be_bytes();
            self.out[self.at..self.at + 4].copy_from_slice(&four);
            self.at += 4;
        }
    }

    pub fn put_flag(&mut self, flag: bool) {
        self.put(u16::from(flag), 1);
    }

    /// Writes the first `count` bits of `from`.
    pub(crate) fn put_bits(&mut self, count: usize, from: &[u8]) {
        let (whole, part) = (count / 8, (count % 8) as u32);
        for &byte in &from[..whole] {
            self.put(u16::from(byte), 8);
        }
        if part > 0 {
            self.put(u16::from(from[whole]) >> (8 - part), part);
        }
    }

    /// Writes the bits still held; a last part of a byte is filled with 0.
    pub fn finish(mut self) {
        while self.count > 0 {
            let byte = self.held << 8 >> self.count;
            self.out[self.at] = byte as u8;
            self.at += 1;
            self.count = self.count.saturating_sub(8);
        }
    }
}

#[cfg(test)]
mod tests {
    use super::*;
    use crate::draws::Draws;

    #[test]
    fn what_is_put_is_taken() {
        let mut draws = Draws(1);
        for _ in 0..200 {
            let widths: Vec<u32> = (0..150).map(|_| 1 + draws.below(16) as u32).collect();
            let values: Vec<u16> = widths
                .iter()
                .map(|width| draws.below(1 << width) as u16)
                .collect();
            let mut out = [0; 320];
            let mut writer = BitWriter::new(&mut out);
            for (&value, &width) in values.iter().zip(&widths) {
                writer.put(value, width);
            }
            let total = widths.iter().sum::<u32>() as usize;
            assert_eq!(writer.at(), total);
            writer.finish();
            let mut reader = BitReader::new(&out[..total.div_ceil(8)]);
            for (&value, &width) in values.iter().zip(&widths) {
                assert_eq!(reader.take(width), value);
            }
            assert_eq!(reader.at(), total);
        }
    }
}
