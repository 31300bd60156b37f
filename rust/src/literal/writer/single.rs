//! Floats in a list whose floats are all singles.

use crate::literal::writer::choice::{Own, Writable};
use crate::literal::writer::layout::{Style, WriteError};
use crate::literal::{Kind, Literal, Syntax};

/// A float that such a list reads back if it reads the single that is nearest to what is written, and neither infinite nor 0 instead.
pub(super) struct Narrow<'a, N: ?Sized>(pub(super) &'a N);

/// Returns the bits of the single that a literal is.
fn single_of(literal: &Literal) -> Option<u32> {
    let single = literal.to_f32().ok()?;
    let vanishes = single == 0.0 && literal.to_f64() != Ok(0.0);
    (single.is_finite() && !vanishes).then_some(single.to_bits())
}

impl<N: Writable + ?Sized> Writable for Narrow<'_, N> {
    fn own(&self, style: Style) -> Own {
        self.0.own(style)
    }

    fn write(&self, syntax: &Syntax, style: Style, buffer: &mut [u8]) -> Result<(usize, bool), WriteError> {
        self.0.write(syntax, style, buffer)
    }

    fn is_plain(&self, _: &Syntax, _: Kind, _: Style, _: bool) -> bool {
        false
    }

    fn is_read_as(&self, _: Style, own: &Literal, literal: &Literal) -> bool {
        let single = single_of(own);
        single.is_some() && single == single_of(literal)
    }

    fn is_worth(&self, style: Style, literal: &Literal) -> bool {
        self.0.is_worth(style, literal)
    }
}
