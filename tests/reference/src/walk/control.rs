//! A control without an engine: the naive model alone, with a fault after which the algorithm no longer excludes.

use super::search::{walk, Figures, Found, Guide, Visited};
use super::starts::zeros;
use crate::naive::{Fault, Standing};
use crate::row::at_30;
use crate::{refusal, Row};

/// Walks from zeros with est kept at GO 24.
pub fn control<const N: usize>() -> Result<Figures, Found<TwoAt30>> {
    walk(&[zeros::<N>()], &Alone(Fault::EstKeptAtGo24))
}

/// Two processes or more are at 30.
#[derive(Clone, Debug)]
pub struct TwoAt30;

struct Alone(Fault);

impl<const N: usize> Guide<N> for Alone {
    type Finding = TwoAt30;

    fn visit(
        &self,
        rows: &[Row; N],
        words: &[u32],
        mut each: impl FnMut(u32, Option<[Row; N]>),
    ) -> Result<Visited, TwoAt30> {
        if at_30(rows) > 1 {
            return Err(TwoAt30);
        }
        let model = Standing::new(rows, self.0);
        for &word in words {
            let mut after = *rows;
            let answer = model.step(word, 0, 0, &mut after);
            each(word, (answer.refusal == refusal::NONE).then_some(after));
        }
        // no pairs of words, rounds or passes are tried
        Ok(Visited::default())
    }
}
