//! Demand 3 on random lists from fresh tables, CANCELs among their words: held(k) is at most k, and at most one
//! process is at 30. The words go to the step one by one, past refused ones, and the rows are those of the naive model.

use reference::generate::schedule::schedule;
use reference::generate::tables::fresh_table;
use reference::generate::Random;
use reference::naive::{self, Fault};
use reference::word::CANCEL;
use reference::{census, step, Cell, Settings, StepAnswer};

#[test]
fn held_is_at_most_k_along_random_lists() {
    let mut rng = Random::new(30);
    let (mut arrivals, mut cancels) = (0, 0);
    for round in 0..300 {
        let n = 2 + round % 15;
        let mut rows = fresh_table(&mut rng, n);
        let mut slow = rows.clone();
        for word in schedule(&mut rng, &rows, 400, 10, Settings::SAFE) {
            let answer = step(&mut rows, word, Settings::SAFE);
            let cell = answer.map_or(Cell::NONE, |event| event.cell);
            let told = StepAnswer { refusal: answer.err().unwrap_or(0), cell };
            assert_eq!(told, naive::step(&mut slow, word, 0, 0, Fault::None));
            assert_eq!(rows, slow);
            arrivals += usize::from(answer.is_ok_and(|event| event.after == 30));
            cancels += usize::from(answer.is_ok_and(|event| event.kind == CANCEL));
            let counts = census(&rows);
            assert!(counts.at_30 <= 1);
            assert!((0..=n).all(|k| usize::from(counts.held[k]) <= k && counts.below[k] <= counts.held[k]));
        }
    }
    assert!(arrivals > 500 && cancels > 200, "{arrivals} {cancels}");
}
