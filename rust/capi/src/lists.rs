//! What the header has for lists of forms, the call that makes a list of it in memory of the caller, and that which writes
//! what a list is made of.
//!
//! A list is Rust's own, so no call needs the stack or the time to copy forms, or writes memory that threads share. Bytes
//! that are reserved are refused unless they are 0: a later version cannot tell what an older program left in them.

use crate::arguments::Out;
use crate::literals::Syntax;
use core::ffi::CStr;
use core::mem::{self, MaybeUninit};
use core::{ptr, slice};
use peltzivar::literal::{self, FloatKind, FloatLimits, IntegerKind, Kind, Opening};

/// What calls read and write by: a list that a call has made, or that of a language.
pub type Forms = literal::Forms<'static>;

/// The spellings of special values, as null-terminated strings. A null pointer is an absent one.
#[repr(C)]
#[derive(Clone, Copy)]
pub struct Specials {
    nan: *const u8,
    inf: *const u8,
    infinity: *const u8,
    reserved: [u8; 8],
}

/// The kinds and the limits of floats, by their numbers.
const FLOATS: [FloatKind; 2] = [FloatKind::Nearest, FloatKind::Single];
const LIMITS: [FloatLimits; 3] = [FloatLimits::None, FloatLimits::Largest, FloatLimits::Both];

/// The numbers of a kind.
#[repr(C)]
#[derive(Clone, Copy)]
struct KindNumbers {
    integers: u8,
    bits: u8,
    floats: u8,
    limits: u8,
}

impl KindNumbers {
    /// Returns the numbers of a kind.
    fn of(kind: Kind) -> KindNumbers {
        let (integers, bits) = match kind.integers() {
            IntegerKind::Signed(bits) => (1, bits),
            IntegerKind::Wraps(bits) => (2, bits),
            IntegerKind::WrapsModulo(bits) => (3, bits),
            IntegerKind::Unsigned(bits) => (4, bits),
            _ => (0, 0),
        };
        KindNumbers { integers, bits, floats: kind.floats() as u8, limits: kind.limits() as u8 }
    }

    /// Returns the kind, or `None` if there is none with these numbers.
    fn kind(self) -> Option<Kind> {
        let integers = match (self.integers, self.bits) {
            (0, 0) => IntegerKind::Exact,
            (1, bits) => IntegerKind::Signed(bits),
            (2, bits) => IntegerKind::Wraps(bits),
            (3, bits) => IntegerKind::WrapsModulo(bits),
            (4, bits) => IntegerKind::Unsigned(bits),
            _ => return None,
        };
        let floats = FLOATS.into_iter().find(|it| *it as u8 == self.floats)?;
        let limits = LIMITS.into_iter().find(|it| *it as u8 == self.limits)?;
        Some(Kind::new(integers, floats)?.with_limits(limits))
    }
}

/// The kind of numbers with a suffix.
#[repr(C)]
#[derive(Clone, Copy)]
struct SuffixKind {
    word: *const u8,
    kind: KindNumbers,
    reserved: [u8; 4],
}

/// Bytes behind a number with which it is not a token. A null pointer is any bytes.
#[repr(C)]
#[derive(Clone, Copy)]
struct Stop {
    bytes: [*const u8; 3],
    reserved: [u8; 8],
}

/// The suffixes of a form. Words are separated by spaces, and a null pointer has none.
#[repr(C)]
#[derive(Clone, Copy)]
struct Suffixes {
    words: [*const u8; 2],
    any: *const u8,
    written: *const u8,
    kinds: *const SuffixKind,
    kind_count: usize,
    stops: *const Stop,
    stop_count: usize,
    either_case: u8,
    whole_words: u8,
    reserved: [u8; 6],
    word_bytes: *const u8,
}

/// A form of numbers: its name, as a null-terminated string or a null pointer, its syntax, the numbers of its kind, whether the
/// case of its opening counts, whether it is only read, its suffixes, or a null pointer, and its opening, as a string or a null
/// pointer.
#[repr(C)]
#[derive(Clone, Copy)]
struct Form {
    name: *const u8,
    syntax: Syntax,
    kind: KindNumbers,
    case_sensitive_opening: u8,
    only_read: u8,
    reserved: [u8; 2],
    suffixes: *const Suffixes,
    opening: *const u8,
}

/// The rules for the tokens of a list, with whether points are given back, to letters alone, and any word may follow.
#[repr(C)]
#[derive(Clone, Copy)]
struct Tokens {
    forms: *const Form,
    count: usize,
    following: *const u8,
    flags: [u8; 3],
    reserved: [u8; 5],
}

/// What a list is made of: forms, the spellings of special values, and the rules for tokens, or a null pointer.
#[repr(C)]
#[derive(Clone, Copy)]
pub struct List {
    forms: *const Form,
    count: usize,
    specials: Specials,
    tokens: *const Tokens,
    reserved: [u64; 2],
}

// The sizes in the header.
const _: () = assert!(size_of::<SuffixKind>() == 16 && size_of::<Stop>() == 32 && size_of::<Suffixes>() == 80);
const _: () = assert!(size_of::<Tokens>() == 32 && size_of::<Form>() == 64 && size_of::<List>() == 72);

/// The most forms, and the most words, kinds and stops of all forms of a list.
const MOST_FORMS: usize = 64;
const MOST: usize = 256;

/// A piece of memory, which is aligned for all that lists have.
type Unit = MaybeUninit<u128>;

/// Memory of a caller for what a call makes of a list. If it is not enough, the call goes on without it, and counts.
struct Memory {
    rest: &'static mut [Unit],
    units: usize,
    words: usize,
    kinds: usize,
    stops: usize,
}

impl Memory {
    /// Returns what begins with the first aligned of `len` bytes.
    ///
    /// # Safety
    ///
    /// A C caller passes the bytes, and they last as long as what is made in them.
    unsafe fn of(start: *mut u8, len: usize) -> Memory {
        let skipped = start.addr().wrapping_neg() % size_of::<Unit>();
        let rest = match len.saturating_sub(skipped) / size_of::<Unit>() {
            0 => &mut [],
            units => slice::from_raw_parts_mut(start.add(skipped).cast(), units),
        };
        Memory { rest, units: 0, words: MOST, kinds: MOST, stops: MOST }
    }

    /// Returns how many bytes are enough at any address.
    fn needed(&self) -> usize {
        self.units * size_of::<Unit>() + size_of::<Unit>() - 1
    }

    /// Returns memory for so many items, or for none if there is not enough.
    fn take<T>(&mut self, count: usize) -> &'static mut [MaybeUninit<T>] {
        const { assert!(align_of::<T>() <= align_of::<Unit>()) };
        let units = (count * size_of::<T>()).div_ceil(size_of::<Unit>());
        self.units += units;
        let Some((taken, rest)) = mem::take(&mut self.rest).split_at_mut_checked(units) else { return &mut [] };
        self.rest = rest;
        // SAFETY: so many units have memory for the items, and nothing else has it.
        unsafe { slice::from_raw_parts_mut(taken.as_mut_ptr().cast(), count) }
    }

    /// Returns the item in this memory, if there is enough.
    fn keep<T>(&mut self, item: T) -> Option<&'static T> {
        Some(self.take(1).first_mut()?.write(item))
    }

    /// Returns the words of a string.
    unsafe fn words(&mut self, text: *const u8) -> Option<&'static [&'static [u8]]> {
        let words = string(text).split(|it| *it == b' ').filter(|it| !it.is_empty());
        let count = words.clone().count();
        self.words = self.words.checked_sub(count)?;
        let all = self.take(count);
        for (word, to) in words.zip(&mut *all) {
            to.write(word);
        }
        Some(written(all))
    }

    /// Returns suffixes, of which there are none without enough memory.
    #[inline(never)]
    unsafe fn suffixes(&mut self, it: Suffixes) -> Option<Option<&'static literal::Suffixes>> {
        if it.reserved != [0; 6] {
            return None;
        }
        let [integers, floats] = [self.words(it.words[0])?, self.words(it.words[1])?];
        self.kinds = self.kinds.checked_sub(it.kind_count)?;
        let kinds = self.take(it.kind_count);
        for index in 0..it.kind_count {
            let SuffixKind { word, kind, reserved } = it.kinds.add(index).read_unaligned();
            put(kinds, index, (string(word), kind.kind().filter(|_| reserved == [0; 4])?));
        }
        self.stops = self.stops.checked_sub(it.stop_count)?;
        let stops = self.take(it.stop_count);
        for index in 0..it.stop_count {
            let Stop { bytes: [last, next, second], reserved } = it.stops.add(index).read_unaligned();
            let stop = literal::Stop::new(string(last), string(next), string(second));
            put(stops, index, Some(stop).filter(|_| reserved == [0; 8])?);
        }
        let made = literal::Suffixes::new(integers, floats, written(stops));
        let made = made.either_case(it.either_case != 0).whole_words(it.whole_words != 0).any_word(string(it.any));
        let made = made.with_written(self.words(it.written)?).with_word_bytes(string(it.word_bytes));
        Some(self.keep(made.with_kinds(written(kinds))))
    }

    /// Returns an array of forms with their suffixes, or `None` if they are refused. There are none without enough memory.
    #[inline(never)]
    unsafe fn forms(&mut self, forms: *const Form, count: usize) -> Option<&'static [literal::Form]> {
        if count > MOST_FORMS || (forms.is_null() && count != 0) {
            return None;
        }
        let (to, mut last) = (self.take(count), (ptr::null(), None));
        for index in 0..count {
            let it = forms.add(index).read_unaligned();
            if !ptr::eq(it.suffixes, last.0) {
                let suffixes = if it.suffixes.is_null() { None } else { self.suffixes(it.suffixes.read_unaligned())? };
                last = (it.suffixes, suffixes);
            }
            let form = literal::Form::new("", Syntax::given(Some(&it.syntax))?).with_kind(it.kind.kind()?);
            let opening = Opening::new(string(it.opening))?.case_sensitive(it.case_sensitive_opening != 0);
            let form = form.with_opening(opening).only_read(it.only_read != 0);
            let form = if let Some(suffixes) = last.1 { form.with_suffixes(suffixes) } else { form };
            put(to, index, Some(form).filter(|_| it.reserved == [0; 2])?);
        }
        Some(written(to))
    }

    /// Returns a list, or `None` if it is refused. There is none without enough memory.
    #[inline(never)]
    unsafe fn list(&mut self, list: List) -> Option<Option<&'static Forms>> {
        if list.count == 0 || list.reserved != [0; 2] {
            return None;
        }
        let forms = self.forms(list.forms, list.count)?;
        let mut made = literal::Forms::new(forms);
        if !list.tokens.is_null() {
            let Tokens { forms, count, following, flags, reserved } = list.tokens.read_unaligned();
            let tokens = literal::Tokens::new(self.forms(forms, count)?, self.words(following)?);
            let [back, to_letters, follows] = flags.map(|it| it != 0);
            let tokens = tokens.gives_points_back(back).any_word_follows(follows);
            let tokens = if to_letters { tokens.gives_points_to_letters() } else { tokens };
            let tokens = Some(self.keep(tokens)).filter(|_| reserved == [0; 5])?;
            made = made.zip(tokens).map(|(it, tokens)| it.with_tokens(tokens));
        }
        let Specials { nan, inf, infinity, reserved } = list.specials;
        let [nan, inf, infinity] = [nan, inf, infinity].map(|it| Some(string(it)).filter(|it| !it.is_empty()));
        let specials = Some(literal::Specials { nan, inf, infinity }).filter(|_| reserved == [0; 8])?;
        // Memory is taken in any case, so that it counts.
        let to = self.take(1).first_mut();
        Some(made.zip(to).map(|(it, to)| &*to.write(it.with_specials(specials))))
    }

    /// Returns a string of words with spaces between them, or a null pointer if it is empty.
    fn string(&mut self, words: &[&[u8]]) -> *const u8 {
        let len = words.iter().map(|it| it.len() + 1).sum();
        if len <= 1 {
            return ptr::null();
        }
        let text = self.take(len);
        for (to, from) in text.iter_mut().zip(words.iter().flat_map(|it| it.iter().chain(b" "))) {
            to.write(*from);
        }
        if let Some(to) = text.last_mut() {
            to.write(0);
        }
        text.as_ptr().cast()
    }

    /// Returns suffixes as C has them.
    #[inline(never)]
    fn shown_suffixes(&mut self, it: &literal::Suffixes) -> Suffixes {
        let (whole_words, kinds, stops) = it.rules();
        let (to_kinds, to_stops) = (self.take(kinds.len()), self.take(stops.len()));
        for (index, (word, kind)) in kinds.iter().enumerate() {
            let word = self.string(&[word]);
            put(to_kinds, index, SuffixKind { word, kind: KindNumbers::of(*kind), reserved: [0; 4] });
        }
        for (index, stop) in stops.iter().enumerate() {
            put(to_stops, index, Stop { bytes: stop.bytes().map(|it| self.string(&[it])), reserved: [0; 8] });
        }
        Suffixes {
            words: [it.integers(), it.floats()].map(|it| self.string(it)),
            any: self.string(&[it.begins_any_word()]),
            written: self.string(it.written()),
            kinds: to_kinds.as_ptr().cast(),
            kind_count: kinds.len(),
            stops: to_stops.as_ptr().cast(),
            stop_count: stops.len(),
            either_case: it.is_either_case().into(),
            whole_words: whole_words.into(),
            reserved: [0; 6],
            word_bytes: self.string(&[it.word_bytes()]),
        }
    }

    /// Returns an array of forms as C has them.
    #[inline(never)]
    fn shown_forms(&mut self, forms: &[literal::Form]) -> *const Form {
        let (to, mut last) = (self.take(forms.len()), (None, ptr::null()));
        for (index, form) in forms.iter().enumerate() {
            if form.suffixes() != last.0 {
                let suffixes = form.suffixes().map(|it| self.shown_suffixes(it));
                last = (form.suffixes(), suffixes.map_or(ptr::null(), |it| self.address(it)));
            }
            let [name, opening] = [form.name().as_bytes(), form.opening().as_bytes()].map(|it| self.string(&[it]));
            let [case_sensitive_opening, only_read] = [form.opening().is_case_sensitive(), form.is_only_read()];
            let shown = Form {
                name,
                syntax: form.syntax().into(),
                kind: KindNumbers::of(form.kind()),
                case_sensitive_opening: case_sensitive_opening.into(),
                only_read: only_read.into(),
                reserved: [0; 2],
                suffixes: last.1,
                opening,
            };
            put(to, index, shown);
        }
        to.as_ptr().cast()
    }

    /// Returns the address of an item in this memory, or a null pointer if there is not enough.
    fn address<T: 'static>(&mut self, item: T) -> *const T {
        self.keep(item).map_or(ptr::null(), ptr::from_ref)
    }

    /// Returns what a list is made of, if there is enough memory.
    #[inline(never)]
    fn shown(&mut self, forms: &Forms) -> Option<&'static List> {
        let literal::Specials { nan, inf, infinity } = forms.specials();
        let [nan, inf, infinity] = [nan, inf, infinity].map(|it| self.string(&[it.unwrap_or_default()]));
        let tokens = forms.tokens().map(|it| {
            let (forms, following, flags) = (self.shown_forms(it.forms()), self.string(it.following()), it.flags());
            let (count, flags) = (it.forms().len(), flags.map(u8::from));
            self.address(Tokens { forms, count, following, flags, reserved: [0; 5] })
        });
        let list = List {
            forms: self.shown_forms(forms.as_slice()),
            count: forms.as_slice().len(),
            specials: Specials { nan, inf, infinity, reserved: [0; 8] },
            tokens: tokens.unwrap_or(ptr::null()),
            reserved: [0; 2],
        };
        self.keep(list)
    }
}

/// Writes an item of an array, unless it is not in the memory.
fn put<T>(to: &mut [MaybeUninit<T>], index: usize, item: T) {
    if let Some(to) = to.get_mut(index) {
        to.write(item);
    }
}

/// Returns the items.
///
/// # Safety
///
/// All must be written.
unsafe fn written<T>(items: &[MaybeUninit<T>]) -> &[T] {
    slice::from_raw_parts(items.as_ptr().cast(), items.len())
}

/// Returns the bytes of a string. A null pointer has none.
unsafe fn string(text: *const u8) -> &'static [u8] {
    if text.is_null() {
        &[]
    } else {
        CStr::from_ptr(text.cast()).to_bytes()
    }
}

calls! {
    fn peltzivar_make_forms(
        list: *const List, memory: *mut u8, len: usize, needed: Out<usize>
    ) -> Option<&'static Forms> {
        let mut memory = Memory::of(memory, len);
        let made = if list.is_null() { None } else { memory.list(list.read_unaligned()) };
        needed.write(if made.is_some() { memory.needed() } else { 0 });
        made.flatten()
    }

    fn peltzivar_list_of(
        forms: Option<&Forms>, memory: *mut u8, len: usize, needed: Out<usize>
    ) -> Option<&'static List> {
        let mut memory = Memory::of(memory, len);
        let shown = forms.and_then(|it| memory.shown(it));
        needed.write(if forms.is_some() { memory.needed() } else { 0 });
        shown
    }
}
