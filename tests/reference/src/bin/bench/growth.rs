//! How the cost grows, in one plot: a word against N, a call against its words, an image against N.

use crate::line::{Line, SIDES};
use crate::lines::{call, image_read, image_written, run, WORDS};
use crate::plot::{svg, Panel, Series};
use crate::time::Samples;
use reference::generate::loads::Load;
use std::path::Path;

/// All points are measured again and again, so that a slow stretch of the machine does not bend a curve.
const PASSES: usize = 7;

/// A line of which so many units are shown.
struct Point {
    x: usize,
    line: Line,
    units: usize,
    samples: Samples,
}

struct Curve {
    name: &'static str,
    points: Vec<Point>,
}

impl Curve {
    /// A unit of each line against N.
    fn by_size(name: &'static str, line: impl Fn(usize) -> Line) -> Curve {
        let point = |n| Point { x: n, line: line(n), units: 1, samples: Samples::default() };
        Curve { name, points: (2..=16).map(point).collect() }
    }

    /// A whole C call against its words.
    fn by_length(name: &'static str, counts: impl Iterator<Item = usize>) -> Curve {
        let line = |words| call(Load::Mixed, words, 5);
        let point = |words| Point { x: words, line: line(words), units: words, samples: Samples::default() };
        Curve { name, points: counts.map(point).collect() }
    }

    /// For each side.
    fn series(self) -> [Series; SIDES.len()] {
        let mut all = SIDES.map(|_| Series::new(self.name));
        for Point { x, line, units, samples } in self.points {
            for (series, go) in all.iter_mut().zip(samples.medians().into_iter().flatten()) {
                series.points.push((x as f64, go * units as f64 / line.units as f64));
            }
        }
        all
    }
}

pub fn draw(repetitions: usize, path: &Path) -> std::io::Result<()> {
    let powers = (0..=6).map(|power| 4usize.pow(power));
    let mut curves = [
        Curve::by_size("C call", |n| call(Load::Mixed, WORDS, n)),
        Curve::by_size("run on rows", |n| run(Load::Mixed, WORDS, n)),
        Curve::by_length("C call", powers.chain([WORDS])),
        Curve::by_size("read", image_read),
        Curve::by_size("written", image_written),
    ];
    for _ in 0..PASSES {
        for Point { line, samples, .. } in curves.iter_mut().flat_map(|curve| &mut curve.points) {
            samples.take(line, repetitions.div_ceil(PASSES));
        }
    }
    if let Some(folder) = path.parent() {
        std::fs::create_dir_all(folder)?;
    }
    std::fs::write(path, svg(&panels(curves)))
}

fn panels(curves: [Curve; 5]) -> [Panel; 3] {
    let [calls, runs, lengths, read, written] = curves.map(Curve::series);
    let panel = |title, across, logarithmic, series| Panel { title, across, up: "ns", logarithmic, series };
    [
        panel("a word of a mixed run, 8192 words", "N", false, vec![calls, runs]),
        panel("a whole C call, mixed, N = 5", "words", true, vec![lengths]),
        panel("an image read or written", "N", false, vec![read, written]),
    ]
}
