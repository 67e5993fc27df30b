//! The search as a dialogue: what it asks, what it is answered, and the path that it finds.
use crate::ffi::{Asked, Row, Step, ASK, FOUND, MOST_CERTIFICATES, OFFER, REFUSED, SPENT};
use crate::refusal::{self, Refusal};
use crate::request::{Budgets, Request};

/// Who answers for the signatures. A closure from a [`Question`] to an [`Answer`] will do, unless the caller has a say in the path too:
///
/// ```
/// use pathjudge::{Answer, Path, Question, Refusal, Signatures};
///
/// /// Takes no path of more than one intermediate.
/// struct Short<S>(S);
///
/// impl<S: Signatures> Signatures for Short<S> {
///     fn check(&mut self, question: &Question<'_>) -> Answer {
///         self.0.check(question)
///     }
///
///     fn offer(&mut self, path: &Path) -> Result<(), Refusal> {
///         match path.intermediates() {
///             [] | [_] => self.0.offer(path),
///             _ => Err(Refusal::MaximumPathDepthExceeded),
///         }
///     }
/// }
/// ```
pub trait Signatures {
    /// Whether the key signed the certificate.
    fn check(&mut self, question: &Question<'_>) -> Answer;

    /// A path that meets every condition but the wanted name, which is checked after this: `Ok` if the caller is content with it, or the refusal with
    /// which the search goes on.
    ///
    /// # Errors
    ///
    /// The refusal takes part in what is reported if no other path is found.
    fn offer(&mut self, _path: &Path) -> Result<(), Refusal> {
        Ok(())
    }
}

impl<F: FnMut(&Question<'_>) -> Answer> Signatures for F {
    fn check(&mut self, question: &Question<'_>) -> Answer {
        self(question)
    }
}

/// A question: did this key sign this certificate?
///
/// Algorithms are the contents of an AlgorithmIdentifier. Look first whether `algorithm` is known, and only then at the key: that is the order in
/// which rustls-webpki answers.
#[derive(Clone, Copy, Debug, PartialEq, Eq)]
pub struct Question<'a> {
    /// Whose key it is.
    pub signer: Party,
    /// Whose certificate it is.
    pub subject: Party,
    /// The key, or why it cannot be read. There, [`Answer::KeyUnreadable`] is what to say, unless the algorithm is unknown.
    pub key: Result<Key<'a>, Refusal>,
    /// The algorithm of the signature.
    pub algorithm: &'a [u8],
    /// The bytes that were signed.
    pub signed: &'a [u8],
    /// The signature.
    pub signature: &'a [u8],
}

/// A public key.
#[derive(Clone, Copy, Debug, PartialEq, Eq)]
pub struct Key<'a> {
    /// Its algorithm.
    pub algorithm: &'a [u8],
    /// The bits of the key.
    pub bits: &'a [u8],
}

/// Somebody in a path, by the number in the request's own list.
#[derive(Clone, Copy, Debug, PartialEq, Eq)]
pub enum Party {
    /// The anchor with this number.
    Anchor(usize),
    /// The intermediate with this number.
    Intermediate(usize),
    /// The end entity.
    EndEntity,
}

/// The answer to a question. The numbers are those of the C interface.
#[derive(Clone, Copy, Debug, PartialEq, Eq)]
#[repr(u16)]
pub enum Answer {
    /// The key signed it.
    Yes = 0,
    /// The signature is wrong.
    Wrong = 1,
    /// No such signature algorithm is known.
    UnknownAlgorithm = 2,
    /// The algorithm is known, but not for a key of this kind.
    NotForThisKey = 3,
    /// The key cannot be read.
    KeyUnreadable = 4,
}

/// A path: from the end entity over intermediates to an anchor.
#[derive(Clone, Copy, Debug, PartialEq, Eq)]
pub struct Path {
    anchor: usize,
    intermediates: [usize; MOST_CERTIFICATES - 1],
    length: usize,
    used: Budgets,
}

impl Path {
    /// The number of the anchor.
    pub fn anchor(&self) -> usize {
        self.anchor
    }

    /// The numbers of the intermediates, from the end entity up.
    pub fn intermediates(&self) -> &[usize] {
        self.intermediates.get(..self.length).unwrap_or(&[])
    }

    /// What the search had spent when it stood here.
    pub fn used(&self) -> Budgets {
        self.used
    }
}

/// Where a search stands.
#[derive(Clone, Copy, Debug, PartialEq, Eq)]
pub enum State<'a> {
    /// It waits for [`Search::answer`].
    Ask(Question<'a>),
    /// It waits for [`Search::reply`].
    Offer(Path),
    /// It ended with a path.
    Found(Path),
    /// It ended without one.
    Refused(Refusal),
}

/// A search, one question at a time: for a caller who cannot answer at once. [`Request::judge_in`] is the loop over it.
#[derive(Clone, Copy, Debug)]
pub struct Search<'a> {
    request: Request<'a>,
    rows: &'a [Row],
    step: Step,
}

impl<'a> Search<'a> {
    /// Begins the search that a request asks for. `rows` are room for what is read of each certificate, as in [`Request::judge_in`].
    pub fn begin(request: Request<'a>, rows: &'a mut [Row]) -> Self {
        let Budgets { signatures, extensions, comparisons } = request.budgets;
        let step = request.lent().begin(signatures, extensions, comparisons, rows);
        Self { request, rows, step }
    }

    /// Where it stands.
    pub fn state(&self) -> State<'a> {
        let state = match self.step.phase {
            ASK => self.question().map(State::Ask),
            OFFER => self.path().map(State::Offer),
            FOUND => self.path().map(State::Found),
            REFUSED | SPENT => Refusal::from_number(self.step.refusal).map(State::Refused),
            _ => None,
        };
        state.unwrap_or(State::Refused(refusal::BROKEN))
    }

    /// Answers a question. Where none is asked, nothing happens.
    pub fn answer(&mut self, answer: Answer) {
        if self.step.phase == ASK {
            self.step = self.request.lent().answer(self.rows, self.step, answer as u16);
        }
    }

    /// Answers an offer. Where none is made, nothing happens.
    pub fn reply(&mut self, content: Result<(), Refusal>) {
        if self.step.phase == OFFER {
            self.step = self.request.lent().answer(self.rows, self.step, content.err().map_or(0, Refusal::number));
        }
    }

    /// What has been spent.
    pub fn used(&self) -> Budgets {
        let budgets = self.request.budgets;
        Budgets {
            signatures: budgets.signatures.saturating_sub(self.step.signatures),
            extensions: budgets.extensions.saturating_sub(self.step.extensions),
            comparisons: budgets.comparisons.saturating_sub(self.step.comparisons),
        }
    }

    fn question(&self) -> Option<Question<'a>> {
        let asked = self.request.lent().question(self.rows, self.step);
        if asked.refusal != 0 {
            return None;
        }
        let certificate = self.certificate(asked.certificate)?;
        Some(Question {
            signer: self.party(asked.key),
            subject: self.party(asked.certificate),
            key: match asked.key_refusal {
                0 => Ok(self.key(&asked)?),
                number => Err(Refusal::from_number(number)?),
            },
            algorithm: asked.algorithm.of(certificate)?,
            signed: asked.signed.of(certificate)?,
            signature: asked.signature.of(certificate)?,
        })
    }

    fn key(&self, asked: &Asked) -> Option<Key<'a>> {
        let holder = match self.party(asked.key) {
            Party::Anchor(number) => self.request.anchors.keys.get(number)?.as_slice(),
            _ => self.certificate(asked.key)?,
        };
        Some(Key { algorithm: asked.key_algorithm.of(holder)?, bits: asked.key_bits.of(holder)? })
    }

    fn certificate(&self, number: usize) -> Option<&'a [u8]> {
        match self.party(number) {
            Party::Anchor(_) => None,
            Party::Intermediate(number) => Some(self.request.intermediates.get(number)?.as_slice()),
            Party::EndEntity => Some(self.request.end_entity),
        }
    }

    /// The library has one numbering: anchors, intermediates, and any other number for the end entity.
    fn party(&self, number: usize) -> Party {
        match number.checked_sub(self.request.anchors.subjects.len()) {
            None => Party::Anchor(number),
            Some(number) if number < self.request.intermediates.len() => Party::Intermediate(number),
            Some(_) => Party::EndEntity,
        }
    }

    fn path(&self) -> Option<Path> {
        let mut path =
            Path { anchor: self.step.anchor, intermediates: [0; MOST_CERTIFICATES - 1], length: self.step.depth, used: self.used() };
        let numbers = self.step.path.get(1..=self.step.depth)?;
        for (place, number) in path.intermediates.iter_mut().zip(numbers) {
            *place = match self.party(*number) {
                Party::Intermediate(number) => number,
                _ => return None,
            };
        }
        Some(path)
    }
}
