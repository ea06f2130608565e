//! What is measured in this process.

use crate::line::{Go, Line};
use reference::compare::{Engine, Reference, Tuned};
use reference::generate::inputs::{image_of, to_bytes};
use reference::generate::loads::Load;
use reference::image::image_length;
use reference::text::MOST_TEXT;
use reference::{Row, Settings, Tally};
use std::hint::black_box;
use std::rc::Rc;

pub const SIZES: [usize; 3] = [2, 5, 16];
pub const WORDS: usize = 8192;
const LENGTHS: [usize; 2] = [64, WORDS];

/// The calls of a go where one call is short.
const CALLS: usize = 256;

#[cfg(feature = "linked")]
fn linked() -> impl Engine {
    reference::compare::Linked { replay: None }
}

#[cfg(not(feature = "linked"))]
fn linked() -> impl Engine {
    Reference
}

/// The settings that are measured, as numbers that the compiler does not know.
fn settings() -> Settings {
    black_box(Settings::SAFE)
}

pub fn all() -> Vec<Line> {
    let mut lines = Vec::new();
    each_load(|load, words, n| lines.push(call(load, words, n)));
    each_load(|load, words, n| lines.push(run(load, words, n)));
    for load in Load::ALL.into_iter().filter(|&load| load != Load::RefusedFirst) {
        lines.extend(SIZES.map(|n| steps(load, n)));
    }
    lines.extend(SIZES.map(image_read));
    lines.extend(SIZES.map(image_written));
    for (load, words) in [(Load::Mixed, 64), (Load::Mixed, WORDS), (Load::Stays, WORDS), (Load::OneByOne, WORDS)] {
        lines.extend(SIZES.map(|n| print(load, words, n)));
    }
    lines.extend(SIZES.map(census));
    lines.extend(SIZES.map(rounds));
    lines
}

fn each_load(mut add: impl FnMut(Load, usize, usize)) {
    for load in Load::ALL {
        for words in LENGTHS {
            SIZES.into_iter().for_each(|n| add(load, words, n));
        }
    }
}

/// A name with the load, the words and N.
pub fn named(what: &str, load: Load, words: usize, n: usize) -> String {
    format!("{what}, {}, {words} words, N = {n}", load.name())
}

/// A figure is of a word, but of the whole call where the first word is refused.
fn of_words(load: Load, words: usize) -> (&'static str, usize) {
    if load == Load::RefusedFirst {
        ("call", 1)
    } else {
        ("word", words)
    }
}

/// The input of the C call and of the printed run: an image, and then the words.
pub fn input(load: Load, words: usize, n: usize) -> Rc<[u8]> {
    let (rows, words) = load.made(n, words);
    [to_bytes(&image_of(&rows)), to_bytes(&words)].concat().into()
}

/// The rows after a mixed run that ends within a schedule.
fn rows_after_run(n: usize) -> Rc<[Row]> {
    let (mut rows, words) = Load::Mixed.made(n, WORDS - 1);
    reference::run(&mut rows, &words, &mut Tally::default(), Settings::SAFE);
    rows.into()
}

/// The call from C: an image is read, words are run, an image is written.
pub fn call(load: Load, words: usize, n: usize) -> Line {
    fn side(engine: impl Engine + 'static, input: Rc<[u8]>, n: usize) -> Go {
        let mut image = vec![0; 4 * image_length(n)];
        Box::new(move || {
            black_box(engine.call_under(black_box(&input), black_box(&mut image), settings()));
        })
    }
    let input = input(load, words, n);
    let sides = vec![side(linked(), input.clone(), n), side(Reference, input.clone(), n), side(Tuned, input, n)];
    let (unit, units) = of_words(load, words);
    Line { name: named("C call", load, words, n), unit, units, sides }
}

/// A run on lent rows with its tally.
pub fn run(load: Load, words: usize, n: usize) -> Line {
    fn side(engine: impl Engine + 'static, start: Rc<[Row]>, words: Rc<[u32]>) -> Go {
        let (mut rows, mut tally) = (start.to_vec(), Tally::default());
        Box::new(move || {
            rows.copy_from_slice(&start);
            black_box(engine.run_under(black_box(&mut rows), black_box(&words), black_box(&mut tally), settings()));
        })
    }
    let (start, list) = load.made(n, words);
    let (start, list): (Rc<[Row]>, Rc<[u32]>) = (start.into(), list.into());
    let sides = vec![
        side(linked(), start.clone(), list.clone()),
        side(Reference, start.clone(), list.clone()),
        side(Tuned, start, list),
    ];
    let (unit, units) = of_words(load, words);
    Line { name: named("run on rows", load, words, n), unit, units, sides }
}

/// Steps on lent rows, each with its check of the table.
fn steps(load: Load, n: usize) -> Line {
    fn side(engine: impl Engine + 'static, start: Rc<[Row]>, words: Rc<[u32]>) -> Go {
        let mut rows = start.to_vec();
        Box::new(move || {
            rows.copy_from_slice(&start);
            for &word in words.iter() {
                black_box(engine.step_under(black_box(&mut rows), black_box(word), settings()));
            }
        })
    }
    let (start, words) = load.made(n, WORDS);
    let (start, words): (Rc<[Row]>, Rc<[u32]>) = (start.into(), words.into());
    let sides = vec![
        side(linked(), start.clone(), words.clone()),
        side(Reference, start.clone(), words.clone()),
        side(Tuned, start, words),
    ];
    Line { name: named("lent step", load, WORDS, n), unit: "step", units: WORDS, sides }
}

/// An image read into lent rows, without a run.
pub fn image_read(n: usize) -> Line {
    fn side(engine: impl Engine + 'static, image: Rc<[u32]>, n: usize) -> Go {
        let mut rows = vec![Row::IDLE; n];
        calls(move || {
            black_box(engine.read_image(black_box(&image), black_box(&mut rows)));
        })
    }
    let image: Rc<[u32]> = image_of(&rows_after_run(n)).into();
    let sides = vec![side(linked(), image.clone(), n), side(Reference, image.clone(), n), side(Tuned, image, n)];
    Line { name: format!("image read, N = {n}"), unit: "call", units: CALLS, sides }
}

/// An image written from lent rows, without a run.
pub fn image_written(n: usize) -> Line {
    fn side(engine: impl Engine + 'static, rows: Rc<[Row]>) -> Go {
        let mut image = vec![0; image_length(rows.len())];
        calls(move || {
            black_box(engine.write_image(black_box(&rows), black_box(&mut image)));
        })
    }
    let rows = rows_after_run(n);
    let sides = vec![side(linked(), rows.clone()), side(Reference, rows.clone()), side(Tuned, rows)];
    Line { name: format!("image written, N = {n}"), unit: "call", units: CALLS, sides }
}

/// The printed run into lent bytes with room for every text.
fn print(load: Load, words: usize, n: usize) -> Line {
    fn side(engine: impl Engine + 'static, input: Rc<[u8]>) -> Go {
        let mut text = vec![0; MOST_TEXT];
        Box::new(move || {
            black_box(engine.print(black_box(&input), black_box(&mut text)));
        })
    }
    let input = input(load, words, n);
    let sides = vec![side(linked(), input.clone()), side(Reference, input.clone()), side(Tuned, input)];
    Line { name: named("printed run", load, words, n), unit: "word", units: words, sides }
}

/// The census of a table after a run.
fn census(n: usize) -> Line {
    fn side(engine: impl Engine + 'static, rows: Rc<[Row]>) -> Go {
        calls(move || {
            black_box(engine.census(black_box(&rows)));
        })
    }
    let rows = rows_after_run(n);
    let sides = vec![side(linked(), rows.clone()), side(Reference, rows.clone()), side(Tuned, rows)];
    Line { name: format!("census, N = {n}"), unit: "call", units: CALLS, sides }
}

/// Rounds from COME of every process on, as many as a list can leave to be done. They are done again and again until
/// they have had about as many words as the other lines.
fn rounds(n: usize) -> Line {
    fn side(engine: impl Engine + 'static, start: Vec<Row>, times: usize) -> Go {
        let mut rows = start.clone();
        Box::new(move || {
            for _ in 0..times {
                rows.copy_from_slice(&start);
                black_box(engine.rounds(black_box(&mut rows)));
            }
        })
    }
    let start = vec![Row { loc: 20, ..Row::IDLE }; n];
    let words = n * usize::from(reference::rounds(&mut start.clone()).rounds);
    let times = WORDS.div_ceil(words);
    let sides =
        vec![side(linked(), start.clone(), times), side(Reference, start.clone(), times), side(Tuned, start, times)];
    Line { name: format!("rounds, N = {n}"), unit: "word", units: times * words, sides }
}

/// A go of many calls.
fn calls(mut one: impl FnMut() + 'static) -> Go {
    Box::new(move || (0..CALLS).for_each(|_| one()))
}
