//! Whether a certificate is to be trusted: is there a path from an anchor to the end entity that keeps every rule?
//!
//! The decision is that of rustls-webpki 0.103.16, refusal for refusal. It is made by a static library whose functions are proved to be safe, to
//! end, and to answer as their contracts say; this crate is the safe way to it. It computes no signature: [`Signatures`] is asked, one question
//! at a time. It needs neither the standard library nor, without the feature `alloc`, an allocator.
//!
//! ```
//! use pathjudge::{Anchor, AnchorArray, Answer, Budgets, Bytes, Name, Purpose, Question, Refusal, Request};
//!
//! # fn main() -> Result<(), Refusal> {
//! // Three certificates with toy signatures: whoever knows the key's bits can sign.
//! let root = include_bytes!(concat!(env!("CARGO_MANIFEST_DIR"), "/tests/chain/root.der"));
//! let issuer = include_bytes!(concat!(env!("CARGO_MANIFEST_DIR"), "/tests/chain/issuer.der"));
//! let server = include_bytes!(concat!(env!("CARGO_MANIFEST_DIR"), "/tests/chain/server.der"));
//!
//! let mut toy = |question: &Question| match question.key {
//!     _ if question.algorithm != b"\x06\x03\x2a\x03\x04" => Answer::UnknownAlgorithm,
//!     Err(_) => Answer::KeyUnreadable,
//!     Ok(key) if key.algorithm != question.algorithm => Answer::NotForThisKey,
//!     Ok(key) if key.bits != question.signature => Answer::Wrong,
//!     Ok(_) => Answer::Yes,
//! };
//!
//! let anchors = AnchorArray::new([Anchor::from_certificate(root)?]);
//! let request = Request {
//!     end_entity: server,
//!     intermediates: &[Bytes::from(issuer)],
//!     anchors: anchors.list(),
//!     distrusted: &[],
//!     time: 1_700_000_000,
//!     purpose: Purpose::SERVER_AUTHENTICATION,
//!     name: Some(Name::Dns(b"www.example.com")),
//!     budgets: Budgets::default(),
//! };
//! let path = request.judge(&mut toy)?;
//! assert_eq!((path.anchor(), path.intermediates()), (0, &[0][..]));
//! assert_eq!(path.used().signatures, 2);
//!
//! let other = Request { name: Some(Name::Dns(b"example.org")), ..request };
//! assert_eq!(other.judge(&mut toy), Err(Refusal::CertNotValidForName));
//! # Ok(())
//! # }
//! ```
#![no_std]
#![deny(missing_docs, unsafe_code)]

#[cfg(feature = "alloc")]
extern crate alloc;
#[cfg(test)]
extern crate std;

mod anchor;
mod ffi;
#[cfg(test)]
mod fuzz;
mod refusal;
mod request;
mod search;

#[cfg(feature = "alloc")]
pub use anchor::AnchorVec;
pub use anchor::{Anchor, AnchorArray, Anchors};
pub use ffi::{Bytes, Row};
pub use refusal::{DerTypeId, Refusal};
pub use request::{good_for, read, Budgets, Name, Purpose, Request};
pub use search::{Answer, Key, Party, Path, Question, Search, Signatures, State};
