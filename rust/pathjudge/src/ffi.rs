//! The C boundary (`include/pathjudge.h`), and all that is unsafe: the functions that crate `judge` exports, each with a safe one over it.
//! They are proved to be safe on every step, every table and lists of any lengths, so that nothing is tested here: a pointer with its own length is all
//! that they ask for.
#![allow(unsafe_code)]

use core::fmt;
use core::marker::PhantomData;
use core::mem::{offset_of, size_of};

/// Bytes that are lent, in the form in which the decision takes a list of them.
///
/// A `&[u8]` taken apart: Rust promises nothing about how a slice of slices lies in memory, so a list that goes to another language is a
/// slice of these. Anything that lends bytes becomes one: `Bytes::from(&certificate)`, or for a list
/// `certificates.iter().map(Bytes::from).collect()`. They are borrowed for as long as it is used:
///
/// ```compile_fail,E0505
/// # use pathjudge::Bytes;
/// let certificate = vec![0x30, 0x00];
/// let lent = Bytes::from(&certificate);
/// drop(certificate);
/// lent.as_slice();
/// ```
#[derive(Clone, Copy)]
#[repr(C)]
pub struct Bytes<'a> {
    start: *const u8,
    length: usize,
    lent: PhantomData<&'a [u8]>,
}

// SAFETY: it is a `&'a [u8]` in two parts, and that is both.
unsafe impl Send for Bytes<'_> {}
// SAFETY: as above.
unsafe impl Sync for Bytes<'_> {}

impl<'a> Bytes<'a> {
    /// The bytes of a slice.
    pub const fn new(bytes: &'a [u8]) -> Self {
        Self { start: bytes.as_ptr(), length: bytes.len(), lent: PhantomData }
    }

    /// The slice again.
    pub const fn as_slice(self) -> &'a [u8] {
        // SAFETY: `new` alone makes one, out of a slice that is lent for 'a.
        unsafe { core::slice::from_raw_parts(self.start, self.length) }
    }
}

impl<'a, T: AsRef<[u8]> + ?Sized> From<&'a T> for Bytes<'a> {
    fn from(bytes: &'a T) -> Self {
        Self::new(bytes.as_ref())
    }
}

impl fmt::Debug for Bytes<'_> {
    fn fmt(&self, f: &mut fmt::Formatter<'_>) -> fmt::Result {
        self.as_slice().fmt(f)
    }
}

/// How many numbers there are in a row.
const ROW: usize = 37;

/// Room for what is read of one certificate, so that it is read once: see [`Request::judge_in`](crate::Request::judge_in).
#[derive(Clone, Copy, PartialEq, Eq)]
#[repr(C)]
pub struct Row([usize; ROW]);

impl Row {
    /// Nothing noted yet.
    pub const EMPTY: Self = Self([0; ROW]);

    /// A row of any numbers.
    #[cfg(test)]
    pub(crate) fn of(number: impl FnMut(()) -> usize) -> Self {
        Self([(); ROW].map(number))
    }
}

impl fmt::Debug for Row {
    fn fmt(&self, f: &mut fmt::Formatter<'_>) -> fmt::Result {
        f.write_str("Row")
    }
}

/// The most certificates in a path: the end entity and six intermediates.
pub(crate) const MOST_CERTIFICATES: usize = 7;

/// What a step is.
pub(crate) const ASK: u16 = 1;
pub(crate) const OFFER: u16 = 2;
pub(crate) const FOUND: u16 = 3;
pub(crate) const REFUSED: u16 = 4;
pub(crate) const SPENT: u16 = 5;

/// The kinds of wanted name.
pub(crate) const NO_NAME: u8 = 0;
pub(crate) const DNS: u8 = 1;
pub(crate) const IP: u8 = 2;

/// A search between two calls.
#[derive(Clone, Copy, Debug, PartialEq, Eq)]
#[repr(C)]
pub(crate) struct Step {
    pub path: [usize; MOST_CERTIFICATES],
    pub next: [usize; MOST_CERTIFICATES],
    pub depth: usize,
    pub at: usize,
    pub list: usize,
    pub anchor: usize,
    pub signatures: u64,
    pub extensions: u64,
    pub comparisons: u64,
    pub best: u16,
    pub phase: u16,
    pub refusal: u16,
}

/// Where a part begins and ends, in bytes that go without saying.
#[derive(Clone, Copy, Debug, PartialEq, Eq)]
#[repr(C)]
pub(crate) struct Place {
    pub start: usize,
    pub end: usize,
}

impl Place {
    pub fn of(self, bytes: &[u8]) -> Option<&[u8]> {
        bytes.get(self.start..self.end)
    }
}

/// What a question is about.
#[derive(Clone, Copy, Debug, PartialEq, Eq)]
#[repr(C)]
pub(crate) struct Asked {
    pub key: usize,
    pub certificate: usize,
    pub signed: Place,
    pub algorithm: Place,
    pub signature: Place,
    pub key_algorithm: Place,
    pub key_bits: Place,
    pub refusal: u16,
    pub key_refusal: u16,
}

/// What is taken of a certificate that is trusted.
#[derive(Clone, Copy, Debug, PartialEq, Eq)]
#[repr(C)]
pub(crate) struct Trusted {
    pub subject: Place,
    pub key: Place,
    pub constraints: Place,
    pub refusal: u16,
    pub bound: u8,
}

// The header asserts the same.
const _: () = {
    assert!(size_of::<Bytes>() == 16);
    assert!(offset_of!(Bytes, length) == 8);
    assert!(size_of::<Row>() == 296);
    assert!(size_of::<Step>() == 176);
    assert!(offset_of!(Step, depth) == 112);
    assert!(offset_of!(Step, signatures) == 144);
    assert!(offset_of!(Step, best) == 168);
    assert!(offset_of!(Step, refusal) == 172);
    assert!(size_of::<Asked>() == 104);
    assert!(offset_of!(Asked, signed) == 16);
    assert!(offset_of!(Asked, key_bits) == 80);
    assert!(offset_of!(Asked, key_refusal) == 98);
    assert!(size_of::<Trusted>() == 56);
    assert!(offset_of!(Trusted, constraints) == 32);
    assert!(offset_of!(Trusted, bound) == 50);
};

/// What a request lends for a whole search.
///
/// There are as many anchors as subjects. Where another of their lists is shorter: an anchor without a key is never used, nor is one that is `bound`
/// by name constraints and has no entry for them; one of which `bound` says nothing has none.
#[derive(Clone, Copy, Debug)]
pub(crate) struct Lent<'a> {
    pub issuers: &'a [Bytes<'a>],
    pub end: &'a [u8],
    pub subjects: &'a [Bytes<'a>],
    pub keys: &'a [Bytes<'a>],
    pub constraints: &'a [Bytes<'a>],
    pub bound: &'a [u8],
    pub distrusted: &'a [Bytes<'a>],
    pub time: u64,
    pub purpose: &'a [u8],
    pub demanded: bool,
    pub kind: u8,
    pub name: &'a [u8],
}

type List<'a> = *const Bytes<'a>;

// The functions that lead from step to step begin with the same parameters: what a request lends, each slice as a pointer and a length.
macro_rules! stepping {
    ($(fn $function:ident($($further:ident: $type:ty),*);)*) => {
        extern "C" {
            $(fn $function(
                issuers: List, issuers_length: usize,
                end: *const u8, end_length: usize,
                subjects: List, subjects_length: usize,
                keys: List, keys_length: usize,
                constraints: List, constraints_length: usize,
                bound: *const u8, bound_length: usize,
                distrusted: List, distrusted_length: usize,
                time: u64,
                purpose: *const u8, purpose_length: usize,
                demanded: u8,
                kind: u8,
                name: *const u8, name_length: usize,
                $($further: $type),*
            ) -> Step;)*
        }
    };
}

macro_rules! step {
    ($function:ident, $lent:expr, $($further:expr),*) => {
        // SAFETY: each pointer is that of a slice that is lent, with its length.
        unsafe {
            $function(
                $lent.issuers.as_ptr(), $lent.issuers.len(),
                $lent.end.as_ptr(), $lent.end.len(),
                $lent.subjects.as_ptr(), $lent.subjects.len(),
                $lent.keys.as_ptr(), $lent.keys.len(),
                $lent.constraints.as_ptr(), $lent.constraints.len(),
                $lent.bound.as_ptr(), $lent.bound.len(),
                $lent.distrusted.as_ptr(), $lent.distrusted.len(),
                $lent.time,
                $lent.purpose.as_ptr(), $lent.purpose.len(),
                $lent.demanded.into(),
                $lent.kind,
                $lent.name.as_ptr(), $lent.name.len(),
                $($further),*
            )
        }
    };
}

stepping! {
    fn pathjudge_begin(signatures: u64, extensions: u64, comparisons: u64, table: *mut Row, table_length: usize);
    fn pathjudge_answer(table: *const Row, table_length: usize, step: Step, answer: u16);
}

extern "C" {
    fn pathjudge_question(
        issuers: List,
        issuers_length: usize,
        end: *const u8,
        end_length: usize,
        keys: List,
        keys_length: usize,
        anchors: usize,
        table: *const Row,
        table_length: usize,
        step: Step,
    ) -> Asked;
    fn pathjudge_read(certificate: *const u8, length: usize) -> u16;
    fn pathjudge_anchor(certificate: *const u8, length: usize) -> Trusted;
    fn pathjudge_name(end: *const u8, end_length: usize, kind: u8, name: *const u8, name_length: usize) -> u16;
}

impl Lent<'_> {
    /// The first step of a search, with so much of the three budgets. What is read of each certificate is noted in the table.
    pub fn begin(&self, signatures: u64, extensions: u64, comparisons: u64, table: &mut [Row]) -> Step {
        step!(pathjudge_begin, self, signatures, extensions, comparisons, table.as_mut_ptr(), table.len())
    }

    /// The step after an answer.
    pub fn answer(&self, table: &[Row], step: Step, answer: u16) -> Step {
        step!(pathjudge_answer, self, table.as_ptr(), table.len(), step, answer)
    }

    /// What the question of a step is about.
    pub fn question(&self, table: &[Row], step: Step) -> Asked {
        // SAFETY: each pointer is that of a slice that is lent, with its length.
        unsafe {
            pathjudge_question(
                self.issuers.as_ptr(),
                self.issuers.len(),
                self.end.as_ptr(),
                self.end.len(),
                self.keys.as_ptr(),
                self.keys.len(),
                self.subjects.len(),
                table.as_ptr(),
                table.len(),
                step,
            )
        }
    }
}

/// 0, or why the bytes are no certificate.
pub(crate) fn read(certificate: &[u8]) -> u16 {
    // SAFETY: the pointer of a slice with its length.
    unsafe { pathjudge_read(certificate.as_ptr(), certificate.len()) }
}

/// The anchor that a trusted certificate is.
pub(crate) fn anchor(certificate: &[u8]) -> Trusted {
    // SAFETY: the pointer of a slice with its length.
    unsafe { pathjudge_anchor(certificate.as_ptr(), certificate.len()) }
}

/// 0, or why an end entity is not good for a name.
pub(crate) fn name(end: &[u8], kind: u8, name: &[u8]) -> u16 {
    // SAFETY: the pointers of slices with their lengths.
    unsafe { pathjudge_name(end.as_ptr(), end.len(), kind, name.as_ptr(), name.len()) }
}

#[cfg(test)]
mod tests {
    use super::{anchor, Bytes, Lent, Row, Step, ASK, NO_NAME, REFUSED};
    use crate::{Purpose, Refusal};

    const ROOT: &[u8] = include_bytes!("../tests/chain/root.der");
    const ISSUER: &[u8] = include_bytes!("../tests/chain/issuer.der");
    const SERVER: &[u8] = include_bytes!("../tests/chain/server.der");
    const BUDGET: u64 = 10;

    /// The first step of a search for a path to the root, with the lists of constraints and of flags as given.
    fn first(constraints: &[Bytes], bound: &[u8]) -> Step {
        let root = anchor(ROOT);
        let part = |place: super::Place| place.of(ROOT).map(Bytes::new).expect("a part of the root");
        Lent {
            issuers: &[Bytes::new(ISSUER)],
            end: SERVER,
            subjects: &[part(root.subject)],
            keys: &[part(root.key)],
            constraints,
            bound,
            distrusted: &[],
            time: 1_700_000_000,
            purpose: Purpose::SERVER_AUTHENTICATION.identifier,
            demanded: false,
            kind: NO_NAME,
            name: &[],
        }
        .begin(BUDGET, BUDGET, BUDGET, &mut [Row::EMPTY; 2])
    }

    #[test]
    fn an_anchor_without_its_name_constraints_is_not_used() {
        let step = first(&[], &[1]);
        assert_eq!((step.phase, step.refusal), (REFUSED, Refusal::UnknownIssuer.number()));
        assert_eq!(step.signatures, BUDGET, "nothing is asked of its key");
    }

    #[test]
    fn an_anchor_with_its_name_constraints_or_with_none_is_used() {
        let empty = [Bytes::new(&[])];
        for (constraints, bound) in [(&empty[..], &[1][..]), (&[], &[0]), (&[], &[])] {
            let step = first(constraints, bound);
            assert_eq!((step.phase, step.anchor), (ASK, 0), "{constraints:?} {bound:?}");
        }
    }
}
