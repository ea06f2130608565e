//! Two words of different processes, both accepted by a table, in either order: where the cells that they used do not
//! clash, each is accepted after the other with the cell that it used before, and the tables are the same, ahead sets
//! and passes apart. Pairs of which one meets a full count after the other are left out.

use crate::word::process_of;
use crate::{refusal, Cell, Row, StepAnswer};

/// Pairs of such words at one table, or at all tables of a walk.
#[derive(Clone, Copy, Debug, Default, PartialEq, Eq)]
pub struct Exchange {
    /// The cells do not clash.
    pub apart: u64,
    /// Of these, the order makes a difference to ahead sets.
    pub ahead_differs: u64,
    /// Of these, the order makes a difference to passes.
    pub passes_differ: u64,
    /// The cells clash.
    pub clashing: u64,
    /// Of these, the order makes a difference to answers or to other cells than ahead and passes.
    pub clash_differs: u64,
    /// One meets a full count after the other, which is in neither of the other numbers.
    pub full: u64,
}

impl std::ops::AddAssign for Exchange {
    fn add_assign(&mut self, more: Exchange) {
        self.apart += more.apart;
        self.ahead_differs += more.ahead_differs;
        self.passes_differ += more.passes_differ;
        self.clashing += more.clashing;
        self.clash_differs += more.clash_differs;
        self.full += more.full;
    }
}

/// A word that a table accepts: the cell that it used, and the rows that it led to.
#[derive(Clone, Copy, Debug)]
pub struct Taken<const N: usize> {
    pub word: u32,
    pub cell: Cell,
    pub rows: [Row; N],
}

/// Tries each pair of different processes in both orders. It ends with the first pair that the order makes a difference
/// to though its cells do not clash.
pub fn exchange<const N: usize>(
    taken: &[Taken<N>],
    step: impl Fn(&mut [Row; N], u32) -> StepAnswer,
) -> Result<Exchange, Box<[Taken<N>; 2]>> {
    let mut counts = Exchange::default();
    for (i, first) in taken.iter().enumerate() {
        for second in taken[i + 1..].iter().filter(|second| process_of(second.word) != process_of(first.word)) {
            match (either_order(first, second, &step), first.cell.clashes(second.cell)) {
                (Order::Full, _) => counts.full += 1,
                (order, true) => {
                    counts.clashing += 1;
                    counts.clash_differs += u64::from(order == Order::Matters);
                }
                (Order::Matters, false) => return Err(Box::new([*first, *second])),
                (Order::ShowsIn { ahead, passes }, false) => {
                    counts.apart += 1;
                    counts.ahead_differs += u64::from(ahead);
                    counts.passes_differ += u64::from(passes);
                }
            }
        }
    }
    Ok(counts)
}

/// What the order of two words makes a difference to: to nothing but ahead sets and passes, or to more.
#[derive(PartialEq, Eq)]
enum Order {
    ShowsIn { ahead: bool, passes: bool },
    Matters,
    Full,
}

fn either_order<const N: usize>(
    first: &Taken<N>,
    second: &Taken<N>,
    step: impl Fn(&mut [Row; N], u32) -> StepAnswer,
) -> Order {
    let (mut first_led, mut second_led) = (first.rows, second.rows);
    let answers = [step(&mut first_led, second.word), step(&mut second_led, first.word)];
    if answers.iter().any(|answer| answer.refusal == refusal::FULL_COUNT) {
        return Order::Full;
    }
    let accepted = [second, first].map(|taken| StepAnswer { refusal: 0, cell: taken.cell });
    if answers != accepted || first_led.map(without_history) != second_led.map(without_history) {
        return Order::Matters;
    }
    let ahead = first_led.map(|row| row.ahead) != second_led.map(|row| row.ahead);
    let passes = first_led.map(|row| row.passes) != second_led.map(|row| row.passes);
    Order::ShowsIn { ahead, passes }
}

fn without_history(row: Row) -> Row {
    Row { ahead: 0, ..row.without_passes() }
}
