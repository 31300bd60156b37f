//! What a caller relies on beyond results: the view whose word is a const argument has what the view at run time has, and a
//! panic names its caller.

use peltzivar::format::{self, NumberFormatBuilder, STANDARD};
use peltzivar::{FormatView, NumberFormat};
use std::num::NonZeroU8;
use std::panic;
use std::sync::atomic::{AtomicU32, Ordering};

fn is_same<const W: u128>() {
    let (constant, view) = (NumberFormat::<W>::new(), FormatView::new(W));
    macro_rules! constants {
        ($($NAME:ident $get:ident)*) => {
            $(assert_eq!(NumberFormat::<W>::$NAME, view.$get(), "{} of {W:#034X}", stringify!($NAME));)*
        };
    }
    constants! {
        REQUIRED_DIGITS required_digits INTERNAL_DIGIT_SEPARATOR internal_digit_separator
        LEADING_DIGIT_SEPARATOR leading_digit_separator TRAILING_DIGIT_SEPARATOR trailing_digit_separator
        CONSECUTIVE_DIGIT_SEPARATOR consecutive_digit_separator MANTISSA_RADIX mantissa_radix RADIX radix
        EXPONENT_BASE exponent_base EXPONENT_RADIX exponent_radix
    }
    let bytes = [view.digit_separator(), view.base_prefix(), view.base_suffix()];
    // An absent byte of the view with a const argument is 0.
    let numbers = [constant.digit_separator(), constant.base_prefix(), constant.base_suffix()];
    assert_eq!(bytes.map(|byte| byte.map_or(0, NonZeroU8::get)), numbers, "{W:#034X}");
    let constants =
        [NumberFormat::<W>::DIGIT_SEPARATOR, NumberFormat::<W>::BASE_PREFIX, NumberFormat::<W>::BASE_SUFFIX];
    assert_eq!(constants, numbers, "{W:#034X}");
    assert_eq!((constant.view(), FormatView::from(constant), FormatView::from(W)), (view, view, view));
    assert_eq!((view.word(), u128::from(view), NumberFormat::<W>::rebuild()), (W, W, view.rebuild()));
    assert_eq!((format::format_is_valid::<W>(), format::format_error::<W>()), (view.is_valid(), view.error()));
}

/// Words in which any two bytes and any two groups of flags differ.
#[test]
fn both_views_are_the_same() {
    is_same::<0x06050403_02000001_00000000_0000000C>();
    is_same::<0x00000A00_00000000_00000009_00000000>();
    is_same::<0x00000A00_00000000_00000090_00000001>();
    is_same::<STANDARD>();
    is_same::<{ u128::MAX }>();
}

/// A panic names the line that called `build_or_panic`.
#[test]
fn build_or_panic_blames_its_caller() {
    static LINE: AtomicU32 = AtomicU32::new(0);
    panic::set_hook(Box::new(|info| {
        let line = info.location().map_or(0, |at| at.line());
        LINE.store(line, Ordering::SeqCst);
    }));
    let builder = NumberFormatBuilder::new().mantissa_radix(1);
    let (line, result) = (line!(), panic::catch_unwind(|| builder.build_or_panic()));
    assert!(result.is_err());
    assert_eq!(LINE.load(Ordering::SeqCst), line);
}
