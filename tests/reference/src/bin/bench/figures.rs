//! The table that is printed.

use crate::line::{Figure, Line, SIDES};

/// The figures of a line.
pub struct Figures {
    name: String,
    unit: &'static str,
    nanoseconds: Figure,
    instructions: Figure,
}

impl Figures {
    pub fn new(line: &Line, nanoseconds: Figure, instructions: Figure) -> Figures {
        Figures { name: line.name.clone(), unit: line.unit, nanoseconds, instructions }
    }

    pub fn printed(self) -> Figures {
        let [linked, plain, tuned] = self.nanoseconds.map(|time| shown(time, 2));
        let [to_plain, to_tuned] = [self.to_plain(), self.to_tuned()].map(|ratio| shown(ratio, 2));
        let counts = self.instructions.map(|count| shown(count, 1));
        row(&self.name, self.unit, [linked, plain, to_plain, tuned, to_tuned], counts);
        self
    }

    pub fn to_plain(&self) -> Option<f64> {
        let [linked, plain, _] = self.nanoseconds;
        ratio(linked?, plain?)
    }

    pub fn to_tuned(&self) -> Option<f64> {
        let [linked, _, tuned] = self.nanoseconds;
        ratio(linked?, tuned?)
    }
}

/// Of nanoseconds, as it is printed.
fn ratio(linked: f64, peer: f64) -> Option<f64> {
    Some((100.0 * linked / peer).round() / 100.0)
}

pub fn head() {
    println!("{:<54}{:^47}{:>22}", "", "nanoseconds", "instructions");
    let [linked, plain, tuned] = SIDES.map(String::from);
    let ratio = || "ratio".to_string();
    row("", "a", [linked, plain, ratio(), tuned, ratio()], SIDES.map(String::from));
}

fn row(name: &str, unit: &str, times: [String; 5], counts: [String; 3]) {
    let [linked, plain, to_plain, tuned, to_tuned] = times;
    let counts: String = counts.iter().map(|count| format!("{count:>11}")).collect();
    println!("{name:<49}{unit:<5}{linked:>11}{plain:>11}{to_plain:>7}{tuned:>11}{to_tuned:>7}{counts}");
}

fn shown(figure: Option<f64>, places: usize) -> String {
    figure.map_or("-".to_string(), |figure| format!("{figure:.places$}"))
}

/// The last line but one: where the linked library takes longer than the plain engine.
pub fn slower_than_plain(all: &[Figures]) -> String {
    let above = |line: &Figures| line.to_plain().filter(|&ratio| ratio > 1.0);
    let named: Vec<String> =
        all.iter().filter_map(|line| above(line).map(|ratio| format!("{} ({ratio:.2})", line.name))).collect();
    match named.len() {
        0 => format!("ratios to plain above 1.00: none of {}", all.len()),
        some => format!("ratios to plain above 1.00: {some} of {}: {}", all.len(), named.join("; ")),
    }
}

/// The last line: how often it takes longer than the tuned one, and the largest ratio.
pub fn slower_than_tuned(all: &[Figures]) -> String {
    let ratios: Vec<f64> = all.iter().filter_map(Figures::to_tuned).collect();
    let above = ratios.iter().filter(|&&ratio| ratio > 1.0).count();
    let largest = ratios.iter().copied().fold(0.0, f64::max);
    format!("ratios to tuned above 1.00: {above} of {}, the largest {largest:.2}", ratios.len())
}
