//! Measures the linked library beside the plain engine and the tuned one, in one process. Where no library is linked the
//! plain engine stands in its place too, and the ratio to it shows how far the machine is to be trusted.
//!
//!     bench [time] [instructions] [growth] [REPETITIONS]
//!
//! Without a name it does all three. ZAGUYPO_REPLAY names the printing program; the `replay` beside this program is its
//! peer. ZAGUYPO_PLOT names the file of the plot of the growth; without it there is none.

mod axis;
mod figures;
mod folder;
mod growth;
mod instructions;
mod line;
mod lines;
mod plot;
mod programs;
mod time;

use figures::Figures;
use line::{Line, NONE};
use std::process::ExitCode;

/// What is measured, and how often each time is taken.
struct Asked {
    time: bool,
    instructions: bool,
    growth: bool,
    repetitions: usize,
}

impl Asked {
    /// None where an argument is not known.
    fn new(arguments: &[String]) -> Option<Asked> {
        let mut asked = Asked { time: false, instructions: false, growth: false, repetitions: 301 };
        for argument in arguments {
            match argument.as_str() {
                "time" => asked.time = true,
                "instructions" => asked.instructions = true,
                "growth" => asked.growth = true,
                number => asked.repetitions = number.parse().ok().filter(|&number| number > 0)?,
            }
        }
        let none = !(asked.time || asked.instructions || asked.growth);
        Some(if none { Asked { time: true, instructions: true, growth: true, ..asked } } else { asked })
    }
}

fn main() -> ExitCode {
    let arguments: Vec<String> = std::env::args().skip(1).collect();
    if arguments == [instructions::CHILD] {
        instructions::be_counted(lines::all());
        return ExitCode::SUCCESS;
    }
    let Some(asked) = Asked::new(&arguments) else {
        eprintln!("bench [time] [instructions] [growth] [REPETITIONS]");
        return ExitCode::from(2);
    };
    let figures = if asked.time || asked.instructions { table(&asked) } else { Vec::new() };
    if let (true, Ok(path)) = (asked.growth, std::env::var("ZAGUYPO_PLOT")) {
        growth::draw(asked.repetitions, path.as_ref()).expect("the plot can be written");
        println!("growth: {path}");
    }
    if asked.time {
        println!("{}", figures::slower_than_plain(&figures));
        println!("{}", figures::slower_than_tuned(&figures));
    }
    ExitCode::SUCCESS
}

/// Measures and prints a line at a time: those in this process, and then the printing programs, if there is one.
fn table(asked: &Asked) -> Vec<Figures> {
    let lines = lines::all();
    let counted = if asked.instructions { instructions::of_lines(&lines) } else { vec![NONE; lines.len()] };
    let timed = |line: &mut Line, most: usize| match asked.time {
        true => time::of_line(line, asked.repetitions.min(most)),
        false => NONE,
    };
    figures::head();
    let mut all: Vec<Figures> = Vec::new();
    for (mut line, instructions) in lines.into_iter().zip(counted) {
        let nanoseconds = timed(&mut line, usize::MAX);
        all.push(Figures::new(&line, nanoseconds, instructions).printed());
    }
    for mut program in programs::all() {
        let nanoseconds = timed(&mut program.line, programs::REPETITIONS);
        let instructions = if asked.instructions { program.instructions() } else { NONE };
        all.push(Figures::new(&program.line, nanoseconds, instructions).printed());
    }
    all
}
