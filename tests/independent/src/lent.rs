//! A buffer lent from the middle of a longer one, so that a write outside of
//! it shows too.

use std::ops::Range;

#[derive(Clone, PartialEq)]
pub struct Lent<T> {
    all: Vec<T>,
    lent: Range<usize>,
}

impl<T> Lent<T> {
    const MARGIN: usize = 5;

    pub fn noisy(size: usize, noise: impl FnMut() -> T) -> Self {
        let all = std::iter::repeat_with(noise).take(size + 2 * Self::MARGIN);
        Lent {
            all: all.collect(),
            lent: Self::MARGIN..Self::MARGIN + size,
        }
    }

    pub fn lend(&mut self) -> &mut [T] {
        &mut self.all[self.lent.clone()]
    }
}
