//! What is asked: a request, with the purpose, the name and the budgets that it speaks of.
use crate::anchor::Anchors;
use crate::ffi::{self, Bytes, Lent, Row};
use crate::refusal::{self, Refusal};
use crate::search::{Path, Search, Signatures, State};
use core::net::IpAddr;

/// For so many certificates, the end entity's among them, there is room without asking the caller for it.
const USUAL_CERTIFICATES: usize = 8;

/// Whether there is a path from an anchor to an end entity, and under which conditions.
///
/// Certificates are DER, as they come. All of it is lent: nothing is copied, and nothing is kept.
#[derive(Clone, Copy, Debug)]
pub struct Request<'a> {
    /// The certificate that is asked about.
    pub end_entity: &'a [u8],
    /// Certificates that may stand between it and an anchor, in the order in which they are tried.
    pub intermediates: &'a [Bytes<'a>],
    /// What is trusted, in the order in which it is tried.
    pub anchors: Anchors<'a>,
    /// Keys that may occur nowhere in a path: contents of a SubjectPublicKeyInfo, as in
    /// [`Anchor::subject_public_key_info`](crate::Anchor::subject_public_key_info).
    pub distrusted: &'a [Bytes<'a>],
    /// The moment that counts, in seconds since the beginning of 1970.
    pub time: u64,
    /// What the path is for.
    pub purpose: Purpose<'a>,
    /// The name that the end entity must be good for. With `None` it is the caller who has to see to that: [`good_for`].
    pub name: Option<Name<'a>>,
    /// What the search may spend.
    pub budgets: Budgets,
}

impl<'a> Request<'a> {
    /// Decides: the first path that meets every condition and that the caller is content with. The wanted name is checked last.
    ///
    /// With more than seven intermediates [`judge_in`](Self::judge_in) is faster.
    ///
    /// # Errors
    ///
    /// Of all the refusals that the search met, the one that says most; or the budget that was used up.
    pub fn judge(&self, signatures: &mut impl Signatures) -> Result<Path, Refusal> {
        self.judge_in(&mut [Row::EMPTY; USUAL_CERTIFICATES], signatures)
    }

    /// The same, with room for what is read of each certificate: a row for every intermediate, and one for the end entity. A certificate
    /// without a row is read again each time it is looked at. The decision is the same with any number of rows, or none:
    ///
    /// ```
    /// use pathjudge::{Path, Refusal, Request, Row, Signatures};
    ///
    /// fn judge(request: &Request, signatures: &mut impl Signatures) -> Result<Path, Refusal> {
    ///     request.judge_in(&mut vec![Row::EMPTY; request.intermediates.len() + 1], signatures)
    /// }
    /// ```
    ///
    /// # Errors
    ///
    /// As of [`judge`](Self::judge).
    pub fn judge_in(&self, rows: &mut [Row], signatures: &mut impl Signatures) -> Result<Path, Refusal> {
        let mut search = Search::begin(*self, rows);
        loop {
            match search.state() {
                State::Ask(question) => search.answer(signatures.check(&question)),
                State::Offer(path) => search.reply(signatures.offer(&path)),
                State::Found(path) => return Ok(path),
                State::Refused(refusal) => return Err(refusal),
            }
        }
    }

    pub(crate) fn lent(&self) -> Lent<'_> {
        let (kind, name) = self.name.as_ref().map_or((ffi::NO_NAME, &[][..]), Name::parts);
        Lent {
            issuers: self.intermediates,
            end: self.end_entity,
            subjects: self.anchors.subjects,
            keys: self.anchors.keys,
            constraints: self.anchors.constraints,
            bound: self.anchors.bound,
            distrusted: self.distrusted,
            time: self.time,
            purpose: self.purpose.identifier,
            demanded: self.purpose.demanded,
            kind,
            name,
        }
    }
}

/// What a key is used for: an extended key usage, which each certificate of a path must list where it lists any.
#[derive(Clone, Copy, Debug, PartialEq, Eq)]
pub struct Purpose<'a> {
    /// The object identifier: its content, without tag and length.
    pub identifier: &'a [u8],
    /// Whether a certificate that lists no purposes at all is refused.
    pub demanded: bool,
}

impl Purpose<'static> {
    /// A server shows who it is: 1.3.6.1.5.5.7.3.1, where purposes are listed.
    pub const SERVER_AUTHENTICATION: Self = Self { identifier: &[0x2b, 6, 1, 5, 5, 7, 3, 1], demanded: false };
    /// A client shows who it is: 1.3.6.1.5.5.7.3.2, where purposes are listed.
    pub const CLIENT_AUTHENTICATION: Self = Self { identifier: &[0x2b, 6, 1, 5, 5, 7, 3, 2], demanded: false };
}

/// A name that an end entity is to be good for.
#[derive(Clone, Copy, Debug, PartialEq, Eq)]
pub enum Name<'a> {
    /// A DNS name as text, `b"www.example.com"`. One that is malformed is refused with [`Refusal::MalformedDnsIdentifier`].
    Dns(&'a [u8]),
    /// An IP address of version 4.
    V4([u8; 4]),
    /// An IP address of version 6.
    V6([u8; 16]),
}

impl Name<'_> {
    fn parts(&self) -> (u8, &[u8]) {
        match self {
            Self::Dns(text) => (ffi::DNS, text),
            Self::V4(address) => (ffi::IP, address),
            Self::V6(address) => (ffi::IP, address),
        }
    }
}

impl From<IpAddr> for Name<'_> {
    fn from(address: IpAddr) -> Self {
        match address {
            IpAddr::V4(address) => Self::V4(address.octets()),
            IpAddr::V6(address) => Self::V6(address.octets()),
        }
    }
}

/// How much a whole search may spend of each kind of work, or has spent. Wanting more than there is ends it.
#[derive(Clone, Copy, Debug, PartialEq, Eq)]
pub struct Budgets {
    /// Questions about a signature: beyond them [`Refusal::MaximumSignatureChecksExceeded`].
    pub signatures: u64,
    /// Certificates put on top of a path: beyond them [`Refusal::MaximumPathBuildCallsExceeded`].
    pub extensions: u64,
    /// Comparisons of a name with a constraint: beyond them [`Refusal::MaximumNameConstraintComparisonsExceeded`].
    pub comparisons: u64,
}

impl Default for Budgets {
    /// Those of rustls-webpki.
    fn default() -> Self {
        Self { signatures: 100, extensions: 200_000, comparisons: 250_000 }
    }
}

/// Whether bytes are a certificate that can stand in a path.
///
/// # Errors
///
/// Why they are none.
pub fn read(certificate: &[u8]) -> Result<(), Refusal> {
    refusal::none(ffi::read(certificate))
}

/// Whether an end entity's certificate is good for a name. Its path plays no part.
///
/// # Errors
///
/// Why it is not, or why it cannot be read.
pub fn good_for(end_entity: &[u8], name: &Name<'_>) -> Result<(), Refusal> {
    let (kind, name) = name.parts();
    refusal::none(ffi::name(end_entity, kind, name))
}
