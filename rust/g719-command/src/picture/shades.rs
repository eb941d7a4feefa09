//! The shades of the two maps. More is darker, step by step, so that they read in grey as well.

/// Shades from least to most: so many steps, between knots that stand even.
pub struct Ramp {
    pub steps: usize,
    knots: [[usize; 3]; 6],
}

/// Loudness from −5 to 34.
pub const LOUDNESS: Ramp = Ramp {
    steps: 40,
    knots: [
        [238, 236, 220],
        [189, 208, 188],
        [126, 170, 170],
        [70, 123, 152],
        [38, 74, 119],
        [14, 24, 54],
    ],
};
/// Rates from 0 to 9.
pub const RATES: Ramp = Ramp {
    steps: 10,
    knots: [
        [244, 241, 234],
        [236, 197, 134],
        [214, 147, 85],
        [179, 95, 54],
        [126, 50, 40],
        [48, 12, 20],
    ],
};

impl Ramp {
    pub fn shade(&self, step: usize) -> String {
        let [red, green, blue] = self.mixed(step);
        format!("#{red:02x}{green:02x}{blue:02x}")
    }

    /// A shade between two knots, in whole numbers, so that it is the same on every machine.
    fn mixed(&self, step: usize) -> [usize; 3] {
        let whole = self.steps - 1;
        let way = step.min(whole) * (self.knots.len() - 1);
        let (knot, part) = (way / whole, way % whole);
        let from = self.knots[knot];
        let to = self.knots[(knot + 1).min(self.knots.len() - 1)];
        std::array::from_fn(|at| (from[at] * (whole - part) + to[at] * part) / whole)
    }
}

#[cfg(test)]
mod tests {
    use super::*;

    /// What a grey print keeps of a shade, in ten-thousandths (Rec. 709).
    fn grey([red, green, blue]: [usize; 3]) -> usize {
        2126 * red + 7152 * green + 722 * blue
    }

    #[test]
    fn more_is_darker() {
        for ramp in [LOUDNESS, RATES] {
            let greys: Vec<usize> = (0..ramp.steps).map(|step| grey(ramp.mixed(step))).collect();
            assert!(
                greys.windows(2).all(|pair| pair[0] > pair[1] + 10_000),
                "{greys:?}"
            );
        }
    }
}
