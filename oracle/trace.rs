//! Added for the oracle: a log of signature questions and of what was used of the budgets; budgets and distrusted keys can be set.
#![allow(missing_docs, unreachable_pub)]
use std::cell::RefCell;
use std::vec::Vec;

pub struct Log {
    /// Where the signer's key begins, where the signed bytes begin, and the answer.
    pub questions: Vec<(usize, usize, Result<(), crate::Error>)>,
    /// Signatures, extensions of the path, comparisons with constraint entries.
    pub used: [usize; 3],
    pub limits: [usize; 3],
    /// In place of the built-in list of distrusted keys.
    pub distrusted: Option<&'static [&'static [u8]]>,
}

std::thread_local! {
    pub static LOG: RefCell<Log> = const { RefCell::new(Log { questions: Vec::new(), used: [0; 3], limits: [0; 3], distrusted: None }) };
}

pub(crate) fn limit(which: usize) -> usize {
    LOG.with(|l| l.borrow().limits[which])
}

pub(crate) fn rest(rest: [usize; 3]) {
    LOG.with(|l| {
        let l = &mut *l.borrow_mut();
        for i in 0..3 {
            l.used[i] = l.limits[i] - rest[i];
        }
    })
}

pub(crate) fn distrusted<'a>(built_in: &'a [&'a [u8]]) -> &'a [&'a [u8]] {
    LOG.with(|l| l.borrow().distrusted.unwrap_or(built_in))
}

/// A question that the budget did not allow was not asked.
#[allow(clippy::as_conversions)]
pub(crate) fn question(key: &[u8], signed: &[u8], answer: &Result<(), crate::Error>) {
    if let Err(crate::Error::MaximumSignatureChecksExceeded) = answer {
        return;
    }
    LOG.with(|l| l.borrow_mut().questions.push((key.as_ptr() as usize, signed.as_ptr() as usize, answer.clone())))
}
