//! An axis of a plot: which numbers it has, which of them are labelled, and where they stand.

pub struct Axis {
    low: f64,
    high: f64,
    pub ticks: Vec<f64>,
    logarithmic: bool,
    /// Where the lowest and the highest number stand.
    pub from: f64,
    pub to: f64,
}

impl Axis {
    /// Whole numbers, every second one labelled, with room on both sides.
    pub fn whole(values: &[f64], from: f64, to: f64) -> Axis {
        let (least, most) = ends(values);
        let ticks = (least as usize..=most as usize).step_by(2).map(|tick| tick as f64).collect();
        Axis { low: least - 1.0, high: most + 1.0, ticks, logarithmic: false, from, to }
    }

    /// From 0 on, with about six labels at 1, 2 or 5 times a power of ten.
    pub fn from_zero(values: &[f64], from: f64, to: f64) -> Axis {
        let (_, most) = ends(values);
        let power = 10f64.powf((most / 6.0).log10().floor());
        let step = [1.0, 2.0, 5.0, 10.0].map(|times| times * power).into_iter().find(|step| most / step <= 6.0);
        let step = step.expect("ten times a power is enough");
        let count = (most / step).ceil() as usize;
        let ticks: Vec<f64> = (0..=count).map(|i| i as f64 * step).collect();
        Axis { low: 0.0, high: count as f64 * step, ticks, logarithmic: false, from, to }
    }

    /// Powers of ten, labelled each.
    pub fn decades(values: &[f64], from: f64, to: f64) -> Axis {
        let (least, most) = ends(values);
        let (low, high) = (least.log10().floor() as i32, most.log10().ceil() as i32);
        let ticks = (low..=high).map(|power| 10f64.powi(power)).collect();
        Axis { low: low.into(), high: high.into(), ticks, logarithmic: true, from, to }
    }

    pub fn place(&self, value: f64) -> f64 {
        let value = if self.logarithmic { value.log10() } else { value };
        self.from + (value - self.low) / (self.high - self.low) * (self.to - self.from)
    }
}

fn ends(values: &[f64]) -> (f64, f64) {
    let least = values.iter().copied().fold(f64::INFINITY, f64::min);
    let most = values.iter().copied().fold(f64::NEG_INFINITY, f64::max);
    (least, most)
}
