//! The printing programs, a process each: a word, with the start of the process in it.

use crate::folder::Folder;
use crate::instructions::of_program;
use crate::line::{Figure, Go, Line};
use crate::lines::{input, named, SIZES, WORDS};
use reference::generate::loads::Load;
use std::fs::File;
use std::hint::black_box;
use std::path::PathBuf;
use std::process::Command;

/// Fewer than of the others, since they take longer.
pub const REPETITIONS: usize = 101;

pub struct Program {
    pub line: Line,
    /// The linked one, and its plain peer; there is no tuned one.
    programs: [PathBuf; 2],
    folder: Folder,
}

/// None without a printing program.
pub fn all() -> Vec<Program> {
    let Ok(program) = std::env::var("ZAGUYPO_REPLAY") else {
        return Vec::new();
    };
    let peer = std::env::current_exe().expect("a path").with_file_name("replay");
    SIZES.map(|n| Program::new([program.clone().into(), peer.clone()], n)).into()
}

impl Program {
    fn new(programs: [PathBuf; 2], n: usize) -> Program {
        let folder = Folder::new(&format!("input-{n}"));
        std::fs::write(folder.file("input"), input(Load::Mixed, WORDS, n)).expect("a temporary file");
        let sides = programs.iter().map(|program| process(program.clone(), folder.file("input"))).collect();
        let name = named("printed run, process", Load::Mixed, WORDS, n);
        Program { line: Line { name, unit: "word", units: WORDS, sides }, programs, folder }
    }

    pub fn instructions(&self) -> Figure {
        let input = self.folder.file("input");
        let count = |program: &PathBuf| Some(of_program(program, &input)? / self.line.units as f64);
        let [linked, plain] = &self.programs;
        [count(linked), count(plain), None]
    }
}

fn process(program: PathBuf, input: PathBuf) -> Go {
    Box::new(move || {
        let stdin = File::open(&input).expect("the temporary file");
        black_box(Command::new(&program).stdin(stdin).output().expect("a printing program"));
    })
}
