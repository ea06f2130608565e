//! Instructions by callgrind, where valgrind is installed: the bench starts itself under it, once for all lines.

use crate::folder::Folder;
use crate::line::{Figure, Go, Line, NONE, SIDES};
use std::fs::File;
use std::hint::black_box;
use std::path::Path;
use std::process::{Command, Stdio};

/// The argument of the bench that is started under callgrind.
pub const CHILD: &str = "counted";

/// Callgrind counts in this function alone, and writes a total at each return.
#[no_mangle]
#[inline(never)]
fn bench_counted(go: &mut Go) {
    go();
    black_box(go);
}

/// What the bench does under callgrind: of each line and side a go before, and then a go that is counted.
pub fn be_counted(lines: Vec<Line>) {
    for mut go in lines.into_iter().flat_map(|line| line.sides) {
        go();
        bench_counted(&mut go);
    }
}

/// The instructions of a unit, for each side of all lines; each line has all sides.
pub fn of_lines(lines: &[Line]) -> Vec<Figure> {
    let bench = std::env::current_exe().expect("a path");
    let within = ["--collect-atstart=no", "--toggle-collect=bench_counted", "--dump-after=bench_counted"];
    let totals = totals(&within, &bench, &[CHILD], Stdio::null()).unwrap_or_default();
    let mut of_sides = totals.chunks_exact(SIDES.len());
    let of_line = |line: &Line| {
        let counted = of_sides.next().map(|totals| [0, 1, 2].map(|side| Some(totals[side] / line.units as f64)));
        counted.unwrap_or(NONE)
    };
    lines.iter().map(of_line).collect()
}

/// All instructions of a program with its standard input from a file.
pub fn of_program(program: &Path, input: &Path) -> Option<f64> {
    let stdin = File::open(input).expect("the input");
    totals(&[], program, &[], stdin.into())?.first().copied()
}

/// Runs a program under callgrind, and gives the totals that are written, in their order.
fn totals(options: &[&str], program: &Path, arguments: &[&str], stdin: Stdio) -> Option<Vec<f64>> {
    let folder = Folder::new("counts");
    let file = folder.file("counts");
    let mut command = Command::new("valgrind");
    command.args(["--tool=callgrind", "--combine-dumps=yes"]).args(options);
    command.arg(format!("--callgrind-out-file={}", file.display())).arg(program).args(arguments);
    let output = command.stdin(stdin).output().ok()?;
    if !output.status.success() {
        eprintln!("callgrind: {}: {}", output.status, String::from_utf8_lossy(&output.stderr));
        return None;
    }
    let written = std::fs::read_to_string(&file).ok()?;
    written.lines().filter_map(|line| line.strip_prefix("totals: ")).map(|total| total.parse().ok()).collect()
}
