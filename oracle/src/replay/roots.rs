//! Matrices of which each root on the diagonal is known to be exact or not, with every method.

use super::Entry;
use crate::roots;
use crate::{GMW81, SE99};

pub const KIND: &str = "inexact roots";

pub fn all() -> Vec<Entry> {
    let matrices = roots::all().into_iter();
    let each = matrices.flat_map(|a| (GMW81..=SE99).map(move |m| Entry::of(KIND, m, &a)));
    each.collect()
}
