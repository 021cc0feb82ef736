//! What was wrong where a call is refused with 1, and how an answer becomes a `Result`.
use crate::refusal::Refusal;
use core::ffi::{c_char, CStr};
use core::fmt;
use core::hash::{Hash, Hasher};

/// The argument that was not as called for, the number or length called for, and words for it.
///
/// ```
/// use altair_close::{is_active_validator, Refusal};
/// let refused = is_active_validator(&[0; 9], 3).unwrap_err();
/// let Refusal::Shape(fault) = refused else { panic!() };
/// assert_eq!((fault.argument, fault.number), ("validator", 10));
/// assert!(refused.to_string().ends_with(": validator: the ten numbers of one validator (10)"));
/// ```
#[derive(Clone, Copy, Debug, PartialEq, Eq)]
pub struct Fault {
    pub argument: &'static str,
    pub wanted: &'static str,
    pub number: u64,
}

impl Fault {
    /// Of a refusal that is known by its number alone.
    pub const UNKNOWN: Fault = Fault { argument: "", wanted: "", number: 0 };
}

#[repr(C)]
pub struct RawFault {
    argument: *const c_char,
    wanted: *const c_char,
    number: u64,
}

impl RawFault {
    fn told(self) -> Fault {
        if self.argument.is_null() {
            return Fault::UNKNOWN;
        }
        // SAFETY: altair.c answers NULL, or two strings that it has for good.
        let text = |at| unsafe { CStr::from_ptr(at) }.to_str().unwrap_or_default();
        Fault { argument: text(self.argument), wanted: text(self.wanted), number: self.number }
    }
}

/// An answer of the library: 0 or a refusal's number, and what is given where it is 0.
pub trait Answered: Sized {
    type Given;
    fn refusal(&self) -> u64;
    fn given(self) -> Self::Given;

    fn result(self, fault: Fault) -> Result<Self::Given, Refusal> {
        Refusal::or(self.refusal(), fault, || self.given())
    }
}

impl Answered for u64 {
    type Given = ();

    fn refusal(&self) -> u64 {
        *self
    }

    fn given(self) {}
}

/// For a call that is not refused with 1.
pub fn no() -> RawFault {
    RawFault { argument: core::ptr::null(), wanted: core::ptr::null(), number: 0 }
}

/// Calls a function of raw.rs and, where it is refused with 1, the one that says why, with the same words: the answer and the fault.
macro_rules! asked {
    ($name:ident, $why:ident, $($word:expr),* $(,)?) => {{
        // SAFETY: the rules of altair.h, What the caller sees to. A pointer and its length are a slice's, so that it points to as many
        // elements and is aligned; what is written is a `&mut` slice, so that it overlaps no other and no other thread has it.
        let answer = unsafe { raw::$name($($word),*) };
        let fault = $crate::fault::why(&answer, || $crate::fault::asks!($why, $($word),*));
        (answer, fault)
    }};
}
macro_rules! asks {
    (no, $($word:expr),*) => {
        $crate::fault::no()
    };
    ($why:ident, $($word:expr),*) => {
        // SAFETY: as of the call itself, which has ended; it only reads.
        unsafe { raw::$why($($word),*) }
    };
}
/// The same, and the `Result` of it.
macro_rules! call {
    ($($words:tt)*) => {{
        let (answer, fault) = $crate::fault::asked!($($words)*);
        $crate::fault::Answered::result(answer, fault)
    }};
}
pub(crate) use {asked, asks, call};

/// The fault behind an answer that is refused with 1.
pub fn why(answer: &impl Answered, asked: impl FnOnce() -> RawFault) -> Fault {
    if answer.refusal() == 1 {
        asked().told()
    } else {
        Fault::UNKNOWN
    }
}

impl Refusal {
    /// ```
    /// use altair_close::Refusal;
    /// assert_eq!(Refusal::from_number(4), Some(Refusal::Root));
    /// assert_eq!(Refusal::from_number(0), None);
    /// ```
    pub fn from_number(number: u64) -> Option<Refusal> {
        Refusal::ALL.into_iter().find(|refusal| refusal.number() == number)
    }

    /// The value where the library's number is 0. It answers no numbers but these: its contracts name each.
    pub(crate) fn or<T>(number: u64, fault: Fault, value: impl FnOnce() -> T) -> Result<T, Refusal> {
        match number {
            0 => Ok(value()),
            1 => Err(Refusal::Shape(fault)),
            _ => Err(Refusal::from_number(number).expect("the library answers 0 or a number of Refusal::ALL")),
        }
    }
}

impl PartialEq for Refusal {
    fn eq(&self, other: &Refusal) -> bool {
        self.number() == other.number()
    }
}

impl Hash for Refusal {
    fn hash<H: Hasher>(&self, state: &mut H) {
        self.number().hash(state)
    }
}

impl fmt::Display for Refusal {
    fn fmt(&self, f: &mut fmt::Formatter<'_>) -> fmt::Result {
        write!(f, "refused {}: {}", self.number(), self.words())?;
        match self {
            Refusal::Shape(fault) if *fault != Fault::UNKNOWN => {
                write!(f, ": {}: {} ({})", fault.argument, fault.wanted, fault.number)
            }
            _ => Ok(()),
        }
    }
}

impl core::error::Error for Refusal {}
