//! The toy signature scheme: a signature is right if it equals the public key.
use pki_types::{AlgorithmIdentifier, InvalidSignature, SignatureVerificationAlgorithm};
use std::cell::RefCell;

#[derive(Debug)]
pub struct Toy(&'static [u8]);

pub static A: Toy = Toy(&[0x06, 0x03, 0x2a, 0x03, 0x04]); // 1.2.3.4
pub static B: Toy = Toy(&[0x06, 0x03, 0x2a, 0x03, 0x05]); // 1.2.3.5
pub static ALL: &[&dyn SignatureVerificationAlgorithm] = &[&A, &B];

#[derive(Clone, Debug)]
pub struct Call {
    /// Where the key begins; a key of no bytes has no place of its own.
    pub key: Option<usize>,
    pub signed: usize,
    pub right: bool,
}

thread_local! {
    /// What reached the verifier, or None: it is not kept.
    pub static CALLS: RefCell<Option<Vec<Call>>> = const { RefCell::new(None) };
}

impl SignatureVerificationAlgorithm for Toy {
    fn verify_signature(&self, key: &[u8], msg: &[u8], sig: &[u8]) -> Result<(), InvalidSignature> {
        let ok = key == sig;
        CALLS.with(|c| {
            if let Some(c) = c.borrow_mut().as_mut() {
                c.push(Call { key: (!key.is_empty()).then(|| key.as_ptr() as usize), signed: msg.as_ptr() as usize, right: ok })
            }
        });
        ok.then_some(()).ok_or(InvalidSignature)
    }
    fn public_key_alg_id(&self) -> AlgorithmIdentifier {
        AlgorithmIdentifier::from_slice(self.0)
    }
    fn signature_alg_id(&self) -> AlgorithmIdentifier {
        AlgorithmIdentifier::from_slice(self.0)
    }
}
