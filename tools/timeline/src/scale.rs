//! Ticks to places on the picture.
//!
//! Assumes that the window does not end before it begins.

/// A tick of a short trace has this width.
const GENEROUS: f64 = 36.0;
const NARROWEST: f64 = 480.0;
const WIDEST: f64 = 1_080.0;
/// Labels of the axis are at least so far apart.
const APART: f64 = 44.0;

#[derive(Clone, Copy, Debug)]
pub struct Scale {
    pub from: u32,
    pub to: u32,
    /// Of the window, in pixels.
    pub width: f64,
}

impl Scale {
    /// Generous for a short window; a long one is as wide as a page allows.
    pub fn fitting(from: u32, to: u32) -> Scale {
        let width = (f64::from(to - from) * GENEROUS).clamp(NARROWEST, WIDEST);
        Scale { from, to, width }
    }

    pub fn pixels(&self, ticks: u32) -> f64 {
        f64::from(ticks) * self.width / f64::from((self.to - self.from).max(1))
    }

    pub fn x(&self, tick: u32) -> f64 {
        self.pixels(tick.saturating_sub(self.from))
    }

    /// The ticks that the axis names: round numbers, not too near one another.
    pub fn ticks(&self) -> Vec<u32> {
        let step = self.step();
        let first = self.from.div_ceil(step);
        (first..)
            .map_while(|n| n.checked_mul(step).filter(|&tick| tick <= self.to))
            .collect()
    }

    /// 1, 2 or 5 times a power of ten.
    fn step(&self) -> u32 {
        let mut tens = 1u32;
        loop {
            for step in [1, 2, 5] {
                let step = tens.saturating_mul(step);
                let room = APART.max(7.0 * self.to.to_string().len() as f64 + 10.0);
                if self.pixels(step) >= room || step > 1_000_000_000 {
                    return step;
                }
            }
            tens = tens.saturating_mul(10);
        }
    }
}

#[cfg(test)]
mod tests {
    use super::Scale;

    #[test]
    fn the_axis_names_round_ticks() {
        assert_eq!(
            Scale::fitting(0, 24).ticks(),
            (0..=12).map(|n| 2 * n).collect::<Vec<u32>>()
        );
        assert_eq!(Scale::fitting(7, 7).ticks(), [7]);
        assert_eq!(Scale::fitting(3, 5).ticks(), [3, 4, 5]);
        for to in [1, 99, 1650, 1_000_000, 4_000_000_000, u32::MAX] {
            let scale = Scale::fitting(0, to);
            let ticks = scale.ticks();
            assert!(ticks.len() >= 2 && ticks.len() <= 30, "{to}: {ticks:?}");
        }
    }
}
