// One case put to the crate `w`. Included twice: `w` is the unchanged crate, and the traced one.
use crate::case::{AnchorIn, Case, NameIn};
use crate::{error_name, toy, Outcome};
use pki_types::{CertificateDer, DnsName, IpAddr, Ipv4Addr, Ipv6Addr, ServerName, TrustAnchor, UnixTime};
use std::cell::{Cell, RefCell};
use std::time::Duration;

fn path_text(p: &w::VerifiedPath<'_>, anchors: &[(usize, TrustAnchor<'_>)], case: &Case) -> String {
    let k = anchors
        .iter()
        .find(|(_, a)| std::ptr::eq(a.subject_public_key_info.as_ref(), p.anchor().subject_public_key_info.as_ref()) && a == p.anchor())
        .map_or("?".to_string(), |(k, _)| k.to_string());
    let ints: Vec<String> = p
        .intermediate_certificates()
        .map(|c| {
            let der = c.der();
            let at = der.as_ref().as_ptr() as usize;
            match case.ints.iter().position(|i| i.as_ptr() as usize == at) {
                Some(n) => n.to_string(),
                None => "?".into(),
            }
        })
        .collect();
    let ints = if ints.is_empty() { "-".to_string() } else { ints.join(",") };
    format!("anchor={k} path={ints}")
}

pub fn name_check(ee: &w::EndEntityCert<'_>, n: &NameIn) -> String {
    let name = match n {
        NameIn::Dns(t) => match DnsName::try_from(t.as_slice()) {
            Ok(d) => ServerName::DnsName(d),
            Err(_) => return "invalid".into(),
        },
        NameIn::Ip(b) => {
            if let Ok(a) = <[u8; 4]>::try_from(b.as_slice()) {
                ServerName::IpAddress(IpAddr::V4(Ipv4Addr::from(std::net::Ipv4Addr::from(a))))
            } else if let Ok(a) = <[u8; 16]>::try_from(b.as_slice()) {
                ServerName::IpAddress(IpAddr::V6(Ipv6Addr::from(std::net::Ipv6Addr::from(a))))
            } else {
                return "invalid".into();
            }
        }
    };
    match ee.verify_is_valid_for_subject_name(&name) {
        Ok(()) => "ok".into(),
        Err(e) => format!("err {}", error_name(&e)),
    }
}

pub fn run(case: &Case) -> Outcome {
    let mut out = Outcome::default();
    let eku: &'static [u8] = crate::keep(&case.eku);
    let usage = match case.eku_required {
        true => w::KeyUsage::required(eku),
        false => w::KeyUsage::required_if_present(eku),
    };

    // anchors
    let anchor_certs: Vec<CertificateDer<'_>> = case
        .anchors
        .iter()
        .map(|a| match a {
            AnchorIn::Raw { .. } => CertificateDer::from_slice(&[]),
            AnchorIn::Cert(c) => CertificateDer::from_slice(c),
        })
        .collect();
    let mut anchors: Vec<(usize, TrustAnchor<'_>)> = vec![];
    for (k, a) in case.anchors.iter().enumerate() {
        match a {
            AnchorIn::Raw { subject, spki, nc } => {
                anchors.push((
                    k,
                    TrustAnchor {
                        subject: subject.as_slice().into(),
                        subject_public_key_info: spki.as_slice().into(),
                        name_constraints: nc.as_deref().map(|n| n.into()),
                    },
                ));
                out.anchors.push("raw".into());
            }
            AnchorIn::Cert(_) => match w::anchor_from_trusted_cert(&anchor_certs[k]) {
                Ok(a) => {
                    out.anchors.push("ok".into());
                    anchors.push((k, a));
                }
                Err(e) => out.anchors.push(error_name(&e)),
            },
        }
    }
    let anchor_list: Vec<TrustAnchor<'_>> = anchors.iter().map(|(_, a)| a.clone()).collect();

    // revocation lists
    let mut crls: Vec<w::CertRevocationList<'_>> = vec![];
    for c in &case.crls {
        match w::BorrowedCertRevocationList::from_der(c) {
            Ok(l) => {
                crls.push(l.into());
                out.crls.push("ok".into());
            }
            Err(e) => out.crls.push(error_name(&e)),
        }
    }
    let crl_refs: Vec<&w::CertRevocationList<'_>> = crls.iter().collect();

    let ee_der = CertificateDer::from_slice(&case.ee);
    let ee = match w::EndEntityCert::try_from(&ee_der) {
        Ok(ee) => ee,
        Err(e) => {
            out.parse = format!("err {}", error_name(&e));
            return out;
        }
    };
    out.parse = "ok".into();
    out.names = case.names.iter().map(|n| name_check(&ee, n)).collect();

    let revocation = if case.crls.is_empty() {
        None
    } else {
        match w::RevocationOptionsBuilder::new(&crl_refs) {
            Err(_) => {
                out.path = "err CrlsRequired".into();
                return out;
            }
            Ok(b) => Some(
                b.with_depth(match case.crl_chain {
                    true => w::RevocationCheckDepth::Chain,
                    false => w::RevocationCheckDepth::EndEntity,
                })
                .with_status_policy(match case.crl_unknown_allow {
                    true => w::UnknownStatusPolicy::Allow,
                    false => w::UnknownStatusPolicy::Deny,
                })
                .with_expiration_policy(match case.crl_expiry_enforce {
                    true => w::ExpirationPolicy::Enforce,
                    false => w::ExpirationPolicy::Ignore,
                })
                .build(),
            ),
        }
    };

    let ints: Vec<CertificateDer<'_>> = case.ints.iter().map(|i| CertificateDer::from_slice(i)).collect();
    let time = UnixTime::since_unix_epoch(Duration::from_secs(case.time));
    let found = RefCell::new(vec![]);
    let left = Cell::new(case.veto.unwrap_or(0));
    let judge = |p: &w::VerifiedPath<'_>| -> Result<(), w::Error> {
        found.borrow_mut().push(path_text(p, &anchors, case));
        match left.get() {
            0 => Ok(()),
            n => {
                left.set(n - 1);
                Err(w::Error::UnknownIssuer)
            }
        }
    };
    let verify_path: Option<&dyn Fn(&w::VerifiedPath<'_>) -> Result<(), w::Error>> = match case.veto {
        Some(_) => Some(&judge),
        None => None,
    };
    toy::CALLS.with(|c| *c.borrow_mut() = Some(vec![]));
    let result = ee.verify_for_usage(toy::ALL, &anchor_list, &ints, time, usage, revocation, verify_path);
    out.calls = toy::CALLS.with(|c| c.borrow_mut().take().unwrap_or_default());
    out.path = match &result {
        Ok(p) => format!("ok {}", path_text(p, &anchors, case)),
        Err(e) => format!("err {}", error_name(e)),
    };
    drop(result);
    out.found = found.into_inner();
    out
}
