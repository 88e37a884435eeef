//! Where the Rust reads a curve. Its `sample_curve` keeps the index and the fraction to itself, so it is handed rulers: curves whose
//! values tell them.

use crate::filter::Filter;

/// Entry k is k, by which the index can be told; then two whose entries are −0.0 and 1.0 by turns, by which the fraction can.
pub fn rulers() -> [[f32; 2049]; 3] {
    let by_turns = |first: usize| std::array::from_fn(|index| if index % 2 == first { -0.0 } else { 1.0 });
    [std::array::from_fn(|index| index as f32), by_turns(0), by_turns(1)]
}

/// Index and fraction, told by what a reader gives of each ruler. Index + fraction is the position that both were taken of, so its whole
/// part is the index. From −0.0 to 1.0 the value is the fraction itself, a negative zero too.
pub fn told(mut read: impl FnMut(usize) -> f32) -> (u32, f32) {
    let index = read(0) as u32;
    (index, read(1 + index as usize % 2))
}

/// A filter of which every curve is the same, with nothing taken off for the summer's rest.
fn with_every(curve: [f32; 2049]) -> Filter {
    let mut filter = Filter::new();
    let curves = filter.curves_mut();
    curves.summer_resting_output = Default::default();
    for other in curves.summer.iter_mut().chain(&mut curves.mixer).chain(&mut curves.volume) {
        **other = curve;
    }
    filter
}

/// Filters that tell where they read a curve.
pub struct Ruled {
    filters: [Filter; 3],
    blank: Filter,
}

impl Ruled {
    pub fn new() -> Self {
        Ruled { filters: rulers().map(with_every), blank: with_every([f32::NAN; 2049]) }
    }

    /// Index and fraction at which a filter reads its curve in a transfer.
    pub fn told(&mut self, mut transfer: impl FnMut(&mut Filter) -> f32) -> (u32, f32) {
        told(|ruler| transfer(&mut self.filters[ruler]))
    }

    /// Whether a filter reads a curve at all: what it gives of curves without a number is none.
    pub fn reads(&mut self, sample: impl FnOnce(&mut Filter) -> f32) -> bool {
        sample(&mut self.blank).is_nan()
    }
}
