//! A view of a format word that is known at compile time. As in `lexical-util`, the word is a const generic argument of
//! the type. Each field is available as a constant and as a method.
//!
//! ```
//! use peltzivar::feature_format::NumberFormat;
//! use peltzivar::format::STANDARD;
//!
//! type Standard = NumberFormat<STANDARD>;
//! const _: () = assert!(Standard::RADIX == 10 && Standard::REQUIRED_MANTISSA_DIGITS);
//! assert!(Standard::new().is_valid() && Standard::new().mantissa_digit(b'a').is_none());
//! ```

use crate::error::Error;
use crate::format_builder::{NumberFormatBuilder, OptionU8};
use crate::format_flags as flags;
use crate::format_flags::Part;
use crate::lawful::{Format, FormatError};
use crate::view::{FormatView, Role, Separators};

/// A view of a format word that is known at compile time. It reads the fields of the word, and checks the word.
///
/// Any word is allowed, whether or not it is [lawful][crate::Rule]. [`FormatView`] has the same methods for a word that
/// is known only at run time, but an absent byte is `None` there, and 0 here, as in `lexical-util`.
///
/// ```
/// use peltzivar::{format::STANDARD, NumberFormat};
///
/// /// A parser whose format is part of its type.
/// fn parse_digit<const FORMAT: u128>(byte: u8) -> Option<u32> {
///     const { assert!(NumberFormat::<FORMAT>::new().is_valid()) };
///     peltzivar::digit::char_to_digit_const(byte, NumberFormat::<FORMAT>::MANTISSA_RADIX)
/// }
/// assert_eq!(parse_digit::<STANDARD>(b'7'), Some(7));
/// ```
#[derive(Clone, Copy, Default, PartialEq, Eq, Hash)]
#[expect(clippy::exhaustive_structs, reason = "written by callers")]
pub struct NumberFormat<const FORMAT: u128>;

impl<const FORMAT: u128> NumberFormat<FORMAT> {
    const VIEW: FormatView = FormatView::new(FORMAT);

    /// Returns the view.
    #[must_use]
    pub const fn new() -> Self {
        NumberFormat
    }

    /// Returns the view as a [`FormatView`], which can also hold a word that is known only at run time.
    #[must_use]
    pub const fn view(&self) -> FormatView {
        Self::VIEW
    }

    /// Returns a new builder, which does not depend on any word.
    pub const fn builder() -> NumberFormatBuilder {
        NumberFormatBuilder::new()
    }

    /// Returns a builder with the fields of the word. An exponent base or exponent radix of 0 becomes the mantissa
    /// radix.
    pub const fn rebuild() -> NumberFormatBuilder {
        Self::VIEW.rebuild()
    }
}

impl<const FORMAT: u128> From<NumberFormat<FORMAT>> for FormatView {
    fn from(format: NumberFormat<FORMAT>) -> Self {
        format.view()
    }
}

impl TryFrom<u128> for Format {
    type Error = FormatError;

    fn try_from(word: u128) -> Result<Self, FormatError> {
        Format::new(word)
    }
}

conversions! {
    view: FormatView => u128 { view.word() }
    word: u128 => FormatView { FormatView::new(word) }
    format: Format => u128 { format.word() }
    format: Format => FormatView { format.view() }
    /// Returns a builder with exactly the fields of the word, as [`from_word`][NumberFormatBuilder::from_word] does.
    format: Format => NumberFormatBuilder { NumberFormatBuilder::from_word(format.word()) }
    /// Returns the [`code`][FormatError::code].
    error: FormatError => Error { error.code() }
}

/// Defines methods that call those of the view. A row has a name, arguments and a result. All have the same mark.
macro_rules! methods {
    ($mark:expr; $($get:ident($($byte:ident: $Byte:ty),*) -> $Type:ty;)*) => {
        $(
            #[doc = concat!("Returns what [`FormatView::", stringify!($get), "`] returns for the word.", $mark)]
            #[must_use]
            #[inline]
            pub const fn $get(&self, $($byte: $Byte),*) -> $Type {
                self.view().$get($($byte),*)
            }
        )*
    };
}

/// Defines methods of both types.
macro_rules! both {
    ($($rows:tt)*) => {
        impl<const FORMAT: u128> NumberFormat<FORMAT> {
            methods! { ""; $($rows)* }
        }

        impl Format {
            methods! { ""; $($rows)* }
        }
    };
}

/// Defines fields as constants of [`NumberFormat`] and as methods of both types. A row has two names and a type.
macro_rules! fields {
    ($($CONST:ident $get:ident $Type:ty;)*) => {
        impl<const FORMAT: u128> NumberFormat<FORMAT> {
            $(
                #[doc = concat!("What [`FormatView::", stringify!($get), "`] returns for the word.")]
                pub const $CONST: $Type = Self::VIEW.$get();
            )*
            methods! { may_change!(); $($get() -> $Type;)* }
        }

        impl Format {
            methods! { ""; $($get() -> $Type;)* }
        }
    };
}

/// Defines the fields of flags. Each has the name of its setter.
macro_rules! flag_fields {
    (() { $($Flag:ident $flag:ident $FLAG:ident;)* } $groups:tt) => {
        fields! { $($FLAG $flag bool;)* }
    };
}

/// Defines bytes that may be absent, as `fields` does. In a [`NumberFormat`], an absent byte is 0.
macro_rules! bytes {
    ($($CONST:ident $get:ident;)*) => {
        impl<const FORMAT: u128> NumberFormat<FORMAT> {
            $(
                #[doc = concat!("What [`FormatView::", stringify!($get), "`] returns for the word, or 0 for `None`.")]
                pub const $CONST: u8 = flags::$get(FORMAT);

                #[doc = concat!("Returns [`", stringify!($CONST), "`][Self::", stringify!($CONST), "].", may_change!())]
                #[must_use]
                pub const fn $get(&self) -> u8 {
                    Self::$CONST
                }
            )*
        }

        impl Format {
            methods! { ""; $($get() -> OptionU8;)* }
        }
    };
}

impl<const FORMAT: u128> NumberFormat<FORMAT> {
    methods! {
        "";
        is_valid() -> bool;
        error() -> Error;
        is_valid_radix() -> bool;
        error_radix() -> Error;
    }
}

both! {
    mantissa_digit(byte: u8) -> Option<u32>;
    exponent_digit(byte: u8) -> Option<u32>;
    is_separator(byte: u8) -> bool;
    separators(part: Part) -> Separators;
    is_base_prefix(byte: u8) -> bool;
    is_base_suffix(byte: u8) -> bool;
    is_exponent_character(exponent: u8, byte: u8) -> bool;
    role_of(exponent: u8, decimal_point: u8, byte: u8) -> Option<Role>;
    has_digit_separator() -> bool;
    has_base_prefix() -> bool;
    has_base_suffix() -> bool;
    radix2() -> u32;
    radix4() -> u32;
    radix8() -> u32;
    flags() -> u128;
    interface_flags() -> u128;
    digit_separator_flags() -> u128;
    exponent_flags() -> u128;
    integer_digit_separator_flags() -> u128;
    fraction_digit_separator_flags() -> u128;
    exponent_digit_separator_flags() -> u128;
}

crate::with_setters!(flag_fields());

bytes! {
    DIGIT_SEPARATOR digit_separator;
    BASE_PREFIX base_prefix;
    BASE_SUFFIX base_suffix;
}

fields! {
    REQUIRED_DIGITS required_digits bool;
    INTERNAL_DIGIT_SEPARATOR internal_digit_separator bool;
    LEADING_DIGIT_SEPARATOR leading_digit_separator bool;
    TRAILING_DIGIT_SEPARATOR trailing_digit_separator bool;
    CONSECUTIVE_DIGIT_SEPARATOR consecutive_digit_separator bool;
    MANTISSA_RADIX mantissa_radix u32;
    RADIX radix u32;
    EXPONENT_BASE exponent_base u32;
    EXPONENT_RADIX exponent_radix u32;
}
