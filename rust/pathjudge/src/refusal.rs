//! Why something was refused: the numbers of `docs/REFUSALS.md`, with the names of rustls-webpki and words of our own.
use core::fmt;

/// What is said if the library broke its word, by a place or a number that cannot be: nothing is accepted then.
pub(crate) const BROKEN: Refusal = Refusal::UnknownIssuer;

/// `Ok` for 0, the number of no refusal.
pub(crate) fn none(number: u16) -> Result<(), Refusal> {
    match number {
        0 => Ok(()),
        _ => Err(Refusal::from_number(number).unwrap_or(BROKEN)),
    }
}

// The refusals in the order of their numbers; those of `TrailingData` stand in the middle.
macro_rules! refusals {
    (
        { $($before:ident $before_words:literal)* }
        TrailingData { $($part:ident $part_words:literal)* }
        { $($after:ident $after_words:literal)* }
    ) => {
        /// Why something was refused. The variants are those of rustls-webpki's `Error`, without further details.
        #[derive(Clone, Copy, Debug, PartialEq, Eq, Hash)]
        #[non_exhaustive]
        pub enum Refusal {
            $(#[doc = $before_words] $before,)*
            /// a part is missing, misplaced, cut short, or has something left over
            TrailingData(DerTypeId),
            $(#[doc = $after_words] $after,)*
        }

        /// The part that a [`Refusal::TrailingData`] is about.
        #[derive(Clone, Copy, Debug, PartialEq, Eq, Hash)]
        #[non_exhaustive]
        pub enum DerTypeId {
            $(#[doc = $part_words] $part,)*
        }

        const NUMBERED: &[Refusal] =
            &[$(Refusal::$before,)* $(Refusal::TrailingData(DerTypeId::$part),)* $(Refusal::$after,)*];

        impl fmt::Display for Refusal {
            fn fmt(&self, f: &mut fmt::Formatter<'_>) -> fmt::Result {
                match self {
                    $(Self::$before => f.write_str($before_words),)*
                    $(Self::TrailingData(DerTypeId::$part) => f.write_str(concat!($part_words, " is not one whole value")),)*
                    $(Self::$after => f.write_str($after_words),)*
                }
            }
        }
    };
}

refusals! {
    {
        CertNotValidYet "a certificate is not valid yet"
        CertExpired "a certificate is no longer valid"
        CertNotValidForName "the certificate is not for the wanted name"
        CertDistrusted "a key is on the list of distrusted ones"
        CertRevoked "a certificate was revoked"
        UnknownRevocationStatus "nothing says whether a certificate was revoked"
        CrlExpired "a revocation list is out of date"
        InvalidSignatureForPublicKey "a certificate's signature is wrong"
        InvalidCrlSignatureForPublicKey "a revocation list's signature is wrong"
        SignatureAlgorithmMismatch "a certificate names two different signature algorithms"
        EmptyEkuExtension "a certificate has a list of purposes that is empty"
        RequiredEkuNotFoundContext "a certificate is not for the wanted purpose"
        NameConstraintViolation "a name is one that an issuer may not vouch for"
        PathLenConstraintViolated "more intermediates stand below an issuer than it allows"
        CaUsedAsEndEntity "an issuer's certificate stands at the end of the path"
        EndEntityUsedAsCa "a certificate that is no issuer's stands within the path"
        IssuerNotCrlSigner "an issuer may not sign revocation lists"
        InvalidCertValidity "a certificate's validity ends before it begins"
        InvalidNetworkMaskConstraint "a constraint on addresses has a mask with gaps, or a wrong length"
        InvalidSerialNumber "a serial number is malformed"
        InvalidCrlNumber "a revocation list's number is malformed"
        UnsupportedSignatureAlgorithmForPublicKeyContext "a certificate's signature algorithm does not go with the key"
        UnsupportedCrlSignatureAlgorithmForPublicKeyContext "a revocation list's signature algorithm does not go with the key"
        UnsupportedSignatureAlgorithmContext "a certificate's signature algorithm is unknown"
        UnsupportedCrlSignatureAlgorithmContext "a revocation list's signature algorithm is unknown"
        UnsupportedCriticalExtension "a critical extension is unknown"
        UnsupportedCertVersion "a certificate is not of version 3"
        UnsupportedCrlVersion "a revocation list is not of version 2"
        UnsupportedDeltaCrl "a revocation list holds changes only"
        UnsupportedIndirectCrl "a revocation list speaks for other issuers"
        UnsupportedNameType "a name is of a kind that cannot be looked for"
        UnsupportedRevocationReason "a reason of revocation is unknown"
        UnsupportedRevocationReasonsPartitioning "a revocation list is for some reasons only"
        UnsupportedCrlIssuingDistributionPoint "a revocation list's distribution point is of an unknown form"
        MaximumPathDepthExceeded "a path would have more than six intermediates"
        MalformedDnsIdentifier "a DNS name is malformed"
        MalformedNameConstraint "a constraint on names is malformed"
        MalformedExtensions "the extensions are malformed"
    }
    TrailingData {
        BitString "a BIT STRING"
        Bool "a BOOLEAN"
        Certificate "a certificate"
        CertificateExtensions "a certificate's field of extensions"
        CertificateTbsCertificate "the signed part of a certificate"
        CertRevocationList "a revocation list"
        CertRevocationListExtension "a revocation list's extension"
        CrlDistributionPoint "a distribution point"
        CommonNameInner "the inner part of a common name"
        CommonNameOuter "the outer part of a common name"
        DistributionPointName "a distribution point's name"
        Extension "an extension"
        GeneralName "a general name"
        RevocationReason "a reason of revocation"
        Signature "a signature"
        SignatureAlgorithm "a signature algorithm"
        SignedData "what is signed, with its signature,"
        SubjectPublicKeyInfo "a public key with its algorithm"
        Time "a time"
        TrustAnchorV1 "an anchor's certificate of version 1"
        TrustAnchorV1TbsCertificate "the signed part of an anchor's certificate of version 1"
        U8 "a number of one byte"
        RevokedCertificate "an entry for a revoked certificate"
        RevokedCertificateExtension "an extension of an entry for a revoked certificate"
        RevokedCertEntry "an entry of a revocation list"
        IssuingDistributionPoint "a list's own distribution point"
    }
    {
        ExtensionValueInvalid "an extension is there twice"
        BadDerTime "a time is malformed"
        BadDer "the encoding is malformed"
        UnknownIssuer "no issuer is known that leads to an anchor"
        MaximumSignatureChecksExceeded "the budget for signatures is used up"
        MaximumPathBuildCallsExceeded "the budget for extensions of a path is used up"
        MaximumNameConstraintComparisonsExceeded "the budget for comparisons with constraints is used up"
    }
}

impl Refusal {
    /// Its number in `docs/REFUSALS.md` and in the C interface, from 1 on.
    pub fn number(self) -> u16 {
        let before = NUMBERED.iter().take_while(|refusal| **refusal != self).count();
        before as u16 + 1
    }

    /// The refusal that has a number, if one has.
    pub fn from_number(number: u16) -> Option<Self> {
        NUMBERED.get(usize::from(number).checked_sub(1)?).copied()
    }
}

impl core::error::Error for Refusal {}

#[cfg(test)]
mod tests {
    use super::*;
    use std::format;
    use std::vec::Vec;

    #[test]
    fn numbers_and_names_are_those_of_the_document() {
        let document = include_str!("../../../docs/REFUSALS.md");
        let listed: Vec<(u16, &str)> = document
            .lines()
            .filter_map(|line| {
                let mut cells = line.strip_prefix("| ")?.split(" | ");
                Some((cells.next()?.parse().ok()?, cells.next()?))
            })
            .collect();
        assert_eq!(listed.len(), NUMBERED.len());
        for (number, name) in listed {
            let refusal = Refusal::from_number(number).expect("a number of the table");
            assert_eq!(format!("{refusal:?}"), name);
            assert_eq!(refusal.number(), number);
        }
        assert_eq!(Refusal::from_number(0), None);
        assert_eq!(Refusal::from_number(NUMBERED.len() as u16 + 1), None);
    }

    #[test]
    fn no_two_refusals_have_the_same_words() {
        let mut words: Vec<_> = NUMBERED.iter().map(|refusal| format!("{refusal}")).collect();
        words.sort();
        words.dedup();
        assert_eq!(words.len(), NUMBERED.len());
    }
}
