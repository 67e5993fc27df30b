//! Trust anchors: one, and lists of them in columns, as the decision takes them.
use crate::ffi::{self, Bytes};
use crate::refusal::{self, Refusal};

/// What a path may end in: a name and a key that are trusted, with the name constraints that they are trusted under.
///
/// Each field is the content of its value, without tag and length: that of the outer SEQUENCE.
#[derive(Clone, Copy, Debug, PartialEq, Eq)]
pub struct Anchor<'a> {
    /// The name that the certificates below it have as their issuer.
    pub subject: &'a [u8],
    /// The key, with its algorithm.
    pub subject_public_key_info: &'a [u8],
    /// What it may vouch for, if that is restricted.
    pub name_constraints: Option<&'a [u8]>,
}

impl<'a> Anchor<'a> {
    /// Reads the anchor out of a certificate. That the certificate is trusted is the caller's word: neither its dates nor its signature count.
    ///
    /// # Errors
    ///
    /// Why the bytes are no certificate. One of version 1 is refused with [`Refusal::BadDer`].
    pub fn from_certificate(certificate: &'a [u8]) -> Result<Self, Refusal> {
        let trusted = ffi::anchor(certificate);
        refusal::none(trusted.refusal)?;
        let parts = || {
            Some(Self {
                subject: trusted.subject.of(certificate)?,
                subject_public_key_info: trusted.key.of(certificate)?,
                name_constraints: match trusted.bound {
                    0 => None,
                    _ => Some(trusted.constraints.of(certificate)?),
                },
            })
        };
        parts().ok_or(refusal::BROKEN)
    }
}

/// A list of anchors that is lent: what a [`Request`](crate::Request) takes. [`AnchorArray`] and [`AnchorVec`] hold one.
#[derive(Clone, Copy, Debug)]
pub struct Anchors<'a> {
    pub(crate) subjects: &'a [Bytes<'a>],
    pub(crate) keys: &'a [Bytes<'a>],
    pub(crate) constraints: &'a [Bytes<'a>],
    pub(crate) bound: &'a [u8],
}

/// As many anchors as its type says, without an allocator. It can be a constant.
///
/// ```
/// use pathjudge::{Anchor, AnchorArray};
///
/// static ROOTS: AnchorArray<1> =
///     AnchorArray::new([Anchor { subject: b"a name", subject_public_key_info: b"a key", name_constraints: None }]);
/// let anchors = ROOTS.list();
/// ```
#[derive(Clone, Copy, Debug)]
pub struct AnchorArray<'a, const N: usize> {
    subjects: [Bytes<'a>; N],
    keys: [Bytes<'a>; N],
    constraints: [Bytes<'a>; N],
    bound: [u8; N],
}

impl<'a, const N: usize> AnchorArray<'a, N> {
    /// The anchors in this order, in which a search tries them.
    pub const fn new(anchors: [Anchor<'a>; N]) -> Self {
        let nothing = [Bytes::new(&[]); N];
        let mut columns = Self { subjects: nothing, keys: nothing, constraints: nothing, bound: [0; N] };
        let mut n = 0;
        while n < N {
            columns.subjects[n] = Bytes::new(anchors[n].subject);
            columns.keys[n] = Bytes::new(anchors[n].subject_public_key_info);
            if let Some(constraints) = anchors[n].name_constraints {
                columns.constraints[n] = Bytes::new(constraints);
                columns.bound[n] = 1;
            }
            n += 1;
        }
        columns
    }

    /// The list, for a request.
    pub const fn list(&self) -> Anchors<'_> {
        Anchors { subjects: &self.subjects, keys: &self.keys, constraints: &self.constraints, bound: &self.bound }
    }
}

/// Any number of anchors. Collected once, it serves every request.
///
/// ```
/// use pathjudge::{Anchor, AnchorVec};
///
/// let anchors: AnchorVec = [b"one name", b"another "]
///     .into_iter()
///     .map(|subject| Anchor { subject, subject_public_key_info: b"a key", name_constraints: None })
///     .collect();
/// let list = anchors.list();
/// ```
#[cfg(feature = "alloc")]
#[derive(Clone, Debug, Default)]
pub struct AnchorVec<'a> {
    subjects: alloc::vec::Vec<Bytes<'a>>,
    keys: alloc::vec::Vec<Bytes<'a>>,
    constraints: alloc::vec::Vec<Bytes<'a>>,
    bound: alloc::vec::Vec<u8>,
}

#[cfg(feature = "alloc")]
impl AnchorVec<'_> {
    /// The list, for a request.
    pub fn list(&self) -> Anchors<'_> {
        Anchors { subjects: &self.subjects, keys: &self.keys, constraints: &self.constraints, bound: &self.bound }
    }
}

#[cfg(feature = "alloc")]
impl<'a> Extend<Anchor<'a>> for AnchorVec<'a> {
    fn extend<I: IntoIterator<Item = Anchor<'a>>>(&mut self, anchors: I) {
        for anchor in anchors {
            self.subjects.push(Bytes::new(anchor.subject));
            self.keys.push(Bytes::new(anchor.subject_public_key_info));
            self.constraints.push(Bytes::new(anchor.name_constraints.unwrap_or(&[])));
            self.bound.push(anchor.name_constraints.is_some().into());
        }
    }
}

#[cfg(feature = "alloc")]
impl<'a> FromIterator<Anchor<'a>> for AnchorVec<'a> {
    fn from_iter<I: IntoIterator<Item = Anchor<'a>>>(anchors: I) -> Self {
        let mut columns = Self::default();
        columns.extend(anchors);
        columns
    }
}
