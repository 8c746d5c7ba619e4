//! Stand-in for ndarray-stats: the smallest and the largest element, which pad.rs names.

use std::cmp::Ordering;

use ndarray::{ArrayRef, Ix1};

/// There is no element, or two elements have no order.
#[derive(Debug)]
pub struct MinMaxError;

pub trait QuantileExt<A> {
    fn min(&self) -> Result<&A, MinMaxError>;
    fn max(&self) -> Result<&A, MinMaxError>;
}

impl<A: PartialOrd> QuantileExt<A> for ArrayRef<A, Ix1> {
    fn min(&self) -> Result<&A, MinMaxError> {
        foremost(self, Ordering::Less)
    }

    fn max(&self) -> Result<&A, MinMaxError> {
        foremost(self, Ordering::Greater)
    }
}

/// The first element that no other precedes in the direction asked for.
fn foremost<A: PartialOrd>(lane: &ArrayRef<A, Ix1>, wanted: Ordering) -> Result<&A, MinMaxError> {
    let mut elements = lane.iter();
    let first = elements.next().ok_or(MinMaxError)?;
    elements.try_fold(first, |best, element| {
        let order = element.partial_cmp(best).ok_or(MinMaxError)?;
        Ok(if order == wanted { element } else { best })
    })
}
