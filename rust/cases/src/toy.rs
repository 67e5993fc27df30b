//! The oracle's toy signature scheme: a signature is right if it is the key's own bits. Two algorithms are known, each for its own keys.
use pathjudge::{Answer, Question};

const KNOWN: [&[u8]; 2] = [&[0x06, 0x03, 0x2a, 0x03, 0x04], &[0x06, 0x03, 0x2a, 0x03, 0x05]];

/// The answer to a question.
pub fn check(question: &Question) -> Answer {
    match question.key {
        _ if !KNOWN.contains(&question.algorithm) => Answer::UnknownAlgorithm,
        Err(_) => Answer::KeyUnreadable,
        Ok(key) if key.algorithm != question.algorithm => Answer::NotForThisKey,
        Ok(key) if key.bits != question.signature => Answer::Wrong,
        Ok(_) => Answer::Yes,
    }
}
