//! Made-up input: numbers, certificates, requests and steps, the same in every run.
use crate::ffi::{self, Bytes, Lent, Row, Step, MOST_CERTIFICATES};
use crate::request::Purpose;
use std::boxed::Box;
use std::vec;
use std::vec::Vec;

/// Numbers that look random (SplitMix64).
pub struct Random(pub u64);

impl Random {
    pub fn next(&mut self) -> u64 {
        self.0 = self.0.wrapping_add(0x9e37_79b9_7f4a_7c15);
        let mixed = (self.0 ^ (self.0 >> 30)).wrapping_mul(0xbf58_476d_1ce4_e5b9);
        let mixed = (mixed ^ (mixed >> 27)).wrapping_mul(0x94d0_49bb_1331_11eb);
        mixed ^ (mixed >> 31)
    }

    pub fn below(&mut self, bound: usize) -> usize {
        (self.next() % bound as u64) as usize
    }

    pub fn percent(&mut self, chance: usize) -> bool {
        self.below(100) < chance
    }

    /// Mostly small, sometimes as large as can be.
    pub fn number(&mut self, usual: usize) -> usize {
        match self.below(20) {
            0 => usize::MAX,
            1 => isize::MAX as usize,
            2 => self.next() as usize,
            _ => self.below(usual),
        }
    }

    /// 0 so often, else any number.
    pub fn answer(&mut self, chance: usize) -> u16 {
        if self.percent(chance) {
            0
        } else {
            self.next() as u16
        }
    }

    fn pick<'a>(&mut self, from: &[&'a [u8]]) -> &'a [u8] {
        from[self.below(from.len())]
    }

    fn noise(&mut self, most: usize) -> Vec<u8> {
        (0..self.below(most + 1)).map(|_| self.next() as u8).collect()
    }

    pub fn list<T>(&mut self, length: usize, mut make: impl FnMut(&mut Self) -> T) -> Vec<T> {
        (0..length).map(|_| make(self)).collect()
    }
}

// Tags, and the numbers of extensions below 2.5.29.
const BIT_STRING: u8 = 0x03;
const OCTET_STRING: u8 = 0x04;
const OBJECT_IDENTIFIER: u8 = 0x06;
const SEQUENCE: u8 = 0x30;
const DNS_NAME: u8 = 0x82;
const IP_ADDRESS: u8 = 0x87;
const PERMITTED: u8 = 0xa0;
const EXCLUDED: u8 = 0xa1;
const EXTENSIONS: u8 = 0xa3;
const ALTERNATIVE_NAME: u8 = 17;
const BASIC_CONSTRAINTS: u8 = 19;
const NAME_CONSTRAINTS: u8 = 30;
const KEY_PURPOSES: u8 = 37;

const VERSION_AND_SERIAL: &[u8] = &[0xa0, 0x03, 0x02, 0x01, 0x02, 0x02, 0x01, 0x01];
const ALGORITHM: &[u8] = &[0x30, 0x05, 0x06, 0x03, 0x2a, 0x03, 0x04];
const VALIDITY: &[u8] = b"\x30\x1e\x17\x0d200101000000Z\x17\x0d400101000000Z";
const VALID: u64 = 1_700_000_000;
const AUTHORITY: &[u8] = &[0x01, 0x01, 0xff];
const PATH_LENGTH: &[u8] = &[0x02, 0x01, 0x01];

/// Names that are presented and wanted, good and bad.
const NAMES: [&[u8]; 6] = [b"a.example", b"*.example", b"b.a.example", b"example", b"-bad-", b""];
const ADDRESSES: [&[u8]; 4] = [&[10, 0, 0, 1], &[0; 16], &[10, 0, 0], &[]];
/// Entries of name constraints, good and bad.
const ENTRIES: [&[u8]; 6] = [
    b"\x30\x09\x82\x07example",
    b"\x30\x0a\x82\x08.example",
    b"\x30\x02\x82\x00",
    b"\x30\x0a\x87\x08\x0a\0\0\0\xff\0\0\0",
    b"\x30\x0a\x87\x08\x0a\0\0\0\xff\0\xff\0",
    b"\x30\x05\xa4\x03\x30\x01\x00",
];
const CHAIN: [&[u8]; 3] = [
    include_bytes!("../../tests/chain/root.der"),
    include_bytes!("../../tests/chain/issuer.der"),
    include_bytes!("../../tests/chain/server.der"),
];

fn value(tag: u8, parts: &[&[u8]]) -> Vec<u8> {
    let content = parts.concat();
    let length = content.len();
    let header = match length {
        0..=0x7f => vec![tag, length as u8],
        0x80..=0xff => vec![tag, 0x81, length as u8],
        _ => vec![tag, 0x82, (length >> 8) as u8, length as u8],
    };
    [header, content].concat()
}

fn extension(number: u8, content: &[&[u8]]) -> Vec<u8> {
    value(SEQUENCE, &[&value(OBJECT_IDENTIFIER, &[&[0x55, 0x1d, number]]), &value(OCTET_STRING, &[&value(SEQUENCE, content)])])
}

/// The key of whoever has this number: the content of a SubjectPublicKeyInfo.
fn key_of(number: u8) -> Vec<u8> {
    [ALGORITHM, &value(BIT_STRING, &[&[0, number]])].concat()
}

fn constraints(random: &mut Random) -> Vec<u8> {
    let mut content = vec![];
    for tag in [PERMITTED, EXCLUDED] {
        if random.percent(50) {
            let length = random.below(3);
            content.extend(value(tag, &random.list(length, |random| random.pick(&ENTRIES))));
        }
    }
    content
}

fn certificate(random: &mut Random, subject: u8, issuer: u8, authority: bool) -> Vec<u8> {
    let mut extensions = vec![];
    if authority {
        let length = if random.percent(10) { PATH_LENGTH } else { &[] };
        extensions.push(extension(BASIC_CONSTRAINTS, &[AUTHORITY, length]));
    }
    if random.percent(15) {
        extensions.push(extension(KEY_PURPOSES, &[&value(OBJECT_IDENTIFIER, &[Purpose::SERVER_AUTHENTICATION.identifier])]));
    }
    if authority && random.percent(15) {
        extensions.push(extension(NAME_CONSTRAINTS, &[&constraints(random)]));
    }
    if random.percent(40) {
        let mut names = vec![];
        for _ in 0..random.below(4) {
            names.push(value(DNS_NAME, &[random.pick(&NAMES)]));
            names.push(value(IP_ADDRESS, &[random.pick(&ADDRESSES)]));
        }
        extensions.push(extension(ALTERNATIVE_NAME, &[&names.concat()]));
    }
    let mut key = key_of(subject);
    if random.percent(3) {
        key.pop();
    }
    let signed = value(
        SEQUENCE,
        &[
            VERSION_AND_SERIAL,
            ALGORITHM,
            &value(SEQUENCE, &[&[issuer]]),
            VALIDITY,
            &value(SEQUENCE, &[&[subject]]),
            &value(SEQUENCE, &[&key]),
            &value(EXTENSIONS, &[&value(SEQUENCE, &[&extensions.concat()])]),
        ],
    );
    let whole = value(SEQUENCE, &[&signed, ALGORITHM, &value(BIT_STRING, &[&[0, issuer]])]);
    damaged(random, whole)
}

/// The certificate as it is, mostly; or cut, or changed at one place, or another one, or noise.
fn damaged(random: &mut Random, mut certificate: Vec<u8>) -> Vec<u8> {
    match random.below(30) {
        0 => return random.noise(64),
        1 => return random.pick(&CHAIN).to_vec(),
        2 => certificate.truncate(random.below(certificate.len() + 1)),
        3..=5 => {
            let place = random.below(certificate.len());
            certificate[place] = random.next() as u8;
        }
        _ => {}
    }
    certificate
}

/// A request of which nothing need make sense. Each slice has a block of its own, so that whoever watches memory sees a step beyond it.
pub struct World {
    issuers: Vec<Box<[u8]>>,
    end: Box<[u8]>,
    subjects: Vec<Box<[u8]>>,
    keys: Vec<Box<[u8]>>,
    constraints: Vec<Box<[u8]>>,
    bound: Box<[u8]>,
    distrusted: Vec<Box<[u8]>>,
    time: u64,
    purpose: &'static [u8],
    demanded: bool,
    kind: u8,
    name: &'static [u8],
}

impl World {
    pub fn new(random: &mut Random) -> Self {
        let intermediates = random.below(9) as u8;
        let anybody = |random: &mut Random| random.below(usize::from(intermediates) + 2) as u8;
        // number k is mostly issued by number k + 1, up to an anchor, so that there are long paths
        let issuer_of = |random: &mut Random, number: u8| if random.percent(90) { number + 1 } else { anybody(random) };
        let issuers = (1..=intermediates).map(|number| {
            let (issuer, authority) = (issuer_of(random, number), random.percent(95));
            certificate(random, number, issuer, authority).into()
        });
        let issuers = issuers.collect();
        let first = issuer_of(random, 0);
        let end = certificate(random, 0, first, false).into();
        let count = random.below(4);
        let anchors = random.list(count, |random| issuer_of(random, intermediates));
        // as many as there are anchors, mostly
        let length = |random: &mut Random| if random.percent(90) { count } else { random.below(count + 1) };
        let (keys, bounds, flags) = (length(random), length(random), length(random));
        let distrusted = random.below(3);
        Self {
            issuers,
            end,
            subjects: anchors.iter().map(|number| Box::from([*number])).collect(),
            keys: anchors[..keys].iter().map(|number| if random.percent(90) { key_of(*number) } else { random.noise(12) }.into()).collect(),
            constraints: random.list(bounds, |random| constraints(random).into()),
            bound: random.list(flags, |random| random.answer(80) as u8).into(),
            distrusted: random.list(distrusted, |random| if random.percent(10) { key_of(anybody(random)) } else { random.noise(8) }.into()),
            time: if random.percent(95) { VALID } else { random.next() },
            purpose: random.pick(&[Purpose::SERVER_AUTHENTICATION.identifier, Purpose::CLIENT_AUTHENTICATION.identifier, &[]]),
            demanded: random.percent(5),
            kind: if random.percent(70) { ffi::NO_NAME } else { random.below(5) as u8 },
            name: if random.percent(50) { random.pick(&NAMES) } else { random.pick(&ADDRESSES) },
        }
    }

    pub fn lend(&self, take: impl FnOnce(&Lent)) {
        fn list(blocks: &[Box<[u8]>]) -> Vec<Bytes<'_>> {
            blocks.iter().map(Bytes::from).collect()
        }
        take(&Lent {
            issuers: &list(&self.issuers),
            end: &self.end,
            subjects: &list(&self.subjects),
            keys: &list(&self.keys),
            constraints: &list(&self.constraints),
            bound: &self.bound,
            distrusted: &list(&self.distrusted),
            time: self.time,
            purpose: self.purpose,
            demanded: self.demanded,
            kind: self.kind,
            name: self.name,
        });
    }
}

/// A row that need not be one of any certificate: small numbers mostly, often one that is said to be accepted.
pub fn row(random: &mut Random) -> Row {
    const USUAL: usize = 160;
    let mut first = random.percent(80);
    Row::of(|()| if std::mem::take(&mut first) { 0 } else { random.number(USUAL) })
}

/// A step that need not be one of any search. With many certificates and no budget a search would be long, so then there is one.
pub fn step(random: &mut Random, certificates: usize) -> Step {
    const FEW: usize = 4;
    const USUAL: usize = 16;
    Step {
        path: [(); MOST_CERTIFICATES].map(|()| random.number(USUAL)),
        next: [(); MOST_CERTIFICATES].map(|()| random.number(USUAL)),
        depth: if random.percent(80) { random.below(MOST_CERTIFICATES + 1) } else { random.number(USUAL) },
        at: random.number(USUAL),
        list: random.number(USUAL),
        anchor: random.number(USUAL),
        signatures: random.number(USUAL) as u64,
        extensions: if certificates <= FEW { random.number(USUAL) } else { random.below(USUAL) } as u64,
        comparisons: random.number(USUAL) as u64,
        best: random.below(80) as u16,
        phase: if random.percent(90) { random.below(7) as u16 } else { random.next() as u16 },
        refusal: random.below(80) as u16,
    }
}
