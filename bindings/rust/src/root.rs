use crate::ffi;
use crate::refusal::{ended, Refusal};

#[derive(Clone, Copy, Debug, PartialEq)]
pub struct Root {
    pub value: f64,
    /// Whether rounding changed the root: no double has the operand as its exact, unrounded square.
    pub inexact: bool,
}

/// The correctly rounded square root: of -0.0 it is -0.0, and exact. Refuses an operand that is not finite (7) or is
/// negative (9).
///
/// ```
/// let root = millracer::sqrt(9.0)?;
/// assert_eq!((root.value, root.inexact), (3.0, false));
/// assert!(millracer::sqrt(2.0)?.inexact);
/// # Ok::<(), millracer::Refusal>(())
/// ```
pub fn sqrt(x: f64) -> Result<Root, Refusal> {
    let answer = unsafe { ffi::millracer_sqrt(x) };
    ended(answer.refusal)?;
    Ok(Root {
        value: answer.value,
        inexact: answer.inexact != 0,
    })
}
