//! Batches for whoever times the unchanged crate: lines `NAME parse|decide COUNT` on standard input, each answered with nanoseconds for the batch.
use crate::case::{AnchorIn, Case};
use crate::toy;
use pki_types::{CertificateDer, TrustAnchor, UnixTime};
use std::collections::HashMap;
use std::hint::black_box;
use std::io::{BufRead, Write};
use std::time::{Duration, Instant};

struct Ready<'a> {
    end: CertificateDer<'a>,
    ints: Vec<CertificateDer<'a>>,
    anchors: Vec<TrustAnchor<'a>>,
    time: UnixTime,
    usage: webpki::KeyUsage,
}

impl<'a> Ready<'a> {
    fn of(case: &'a Case) -> Self {
        let raw = |a: &'a AnchorIn| match a {
            AnchorIn::Raw { subject, spki, nc } => TrustAnchor {
                subject: subject.as_slice().into(),
                subject_public_key_info: spki.as_slice().into(),
                name_constraints: nc.as_deref().map(|n| n.into()),
            },
            AnchorIn::Cert(_) => panic!("{}: anchors in parts, for the crate is timed alone", case.name),
        };
        assert!(
            case.budget.is_none() && case.distrust.is_empty() && case.crls.is_empty(),
            "{}: of the unchanged crate nothing can be set",
            case.name
        );
        let purpose = crate::keep(&case.eku);
        Self {
            end: CertificateDer::from_slice(&case.ee),
            ints: case.ints.iter().map(|i| CertificateDer::from_slice(i)).collect(),
            anchors: case.anchors.iter().map(raw).collect(),
            time: UnixTime::since_unix_epoch(Duration::from_secs(case.time)),
            usage: match case.eku_required {
                true => webpki::KeyUsage::required(purpose),
                false => webpki::KeyUsage::required_if_present(purpose),
            },
        }
    }

    fn parse(&self) -> bool {
        webpki::EndEntityCert::try_from(black_box(&self.end)).is_ok()
    }

    /// From the bytes on: the end entity is parsed too.
    fn decide(&self) -> bool {
        match webpki::EndEntityCert::try_from(black_box(&self.end)) {
            Ok(end) => end.verify_for_usage(toy::ALL, &self.anchors, &self.ints, self.time, self.usage, None, None).is_ok(),
            Err(_) => false,
        }
    }
}

fn nanoseconds(count: u32, f: impl Fn() -> bool) -> u128 {
    let start = Instant::now();
    for _ in 0..count {
        black_box(f());
    }
    start.elapsed().as_nanos()
}

pub fn serve(cases: &[Case]) {
    let ready: HashMap<&str, Ready<'_>> = cases.iter().map(|c| (c.name.as_str(), Ready::of(c))).collect();
    for line in std::io::stdin().lock().lines() {
        let line = line.expect("standard input");
        let words: Vec<&str> = line.split(' ').collect();
        let [name, what, count] = words[..] else { panic!("NAME parse|decide COUNT, not {line}") };
        let (case, count) = (&ready[name], count.parse().expect("a number"));
        let taken = match what {
            "parse" => nanoseconds(count, || case.parse()),
            "decide" => nanoseconds(count, || case.decide()),
            _ => panic!("parse or decide, not {what}"),
        };
        println!("{taken}");
        std::io::stdout().flush().expect("standard output");
    }
}
