//! The recorded cases of tests/: each gets the oracle's own answer, or the one that a listed difference says.
use cases::case::{self, AnchorIn, Case, NameIn};
use cases::toy;
use pathjudge::{Anchor, AnchorVec, Budgets, Bytes, Name, Purpose, Question, Request};
use std::collections::BTreeSet;
use std::fs;
use std::path::PathBuf;

const FILES: [&str; 15] = [
    "differences",
    "generated-bytes",
    "generated-dns",
    "generated-dnsname",
    "generated-ext",
    "generated-flip",
    "generated-forest",
    "generated-forest2",
    "generated-ip",
    "generated-ncs",
    "generated-time",
    "generated-tree",
    "hand",
    "limits",
    "slow",
];

/// The file whose cases take seconds each.
const SLOW: &str = "slow";

fn folder() -> PathBuf {
    PathBuf::from(env!("CARGO_MANIFEST_DIR")).join("../../tests")
}

fn text_of(name: &str) -> String {
    let file = folder().join(name);
    fs::read_to_string(&file).unwrap_or_else(|e| panic!("{}: {e}", file.display()))
}

/// The cases of a file, each with the oracle's answer and with what Pathjudge is due to answer.
fn recorded(file: &str) -> Vec<(Case, String, String)> {
    let mut all = vec![];
    case::each(text_of(&format!("{file}.txt")).as_bytes(), |case| all.push(case.expect("a case")));
    let mut answers: Vec<(String, String)> = vec![];
    for line in text_of(&format!("{file}.answers")).lines() {
        match line.strip_prefix("= ") {
            // `= NUMBER ANSWER`: a difference that is listed under this number
            Some(listed) => answers.last_mut().expect("it follows an answer").1 = listed.split_once(' ').expect("a number").1.into(),
            None => answers.push((line.into(), line.into())),
        }
    }
    assert!(!all.is_empty());
    assert_eq!(all.len(), answers.len(), "{file}: as many answers as cases");
    all.into_iter().zip(answers).map(|(case, (theirs, due))| (case, theirs, due)).collect()
}

/// How many cases of a file were compared, with room for what is read of all certificates, of half of them and of none; how many of them differ from the oracle as listed, and how many have revocation lists.
fn replay(file: &str) -> [usize; 3] {
    let [mut compared, mut listed, mut unsupported] = [0; 3];
    for (case, theirs, due) in recorded(file) {
        let ours = cases::answer(&case);
        if case.revocation {
            assert_eq!(ours, format!("{} | crls unsupported", case.name));
            unsupported += 1;
            continue;
        }
        assert_eq!(ours, due, "{file}");
        if file != SLOW {
            for rows in [0, case.intermediates.len().div_ceil(2)] {
                assert_eq!(cases::answer_in(&case, rows), due, "{file}, {rows} rows");
            }
        }
        compared += 1;
        listed += usize::from(due != theirs);
    }
    [compared, listed, unsupported]
}

#[test]
fn every_file_is_replayed() {
    let there: BTreeSet<String> = fs::read_dir(folder())
        .expect("tests/")
        .map(|entry| entry.expect("an entry").path())
        .filter(|path| path.extension().is_some_and(|ending| ending == "txt"))
        .map(|path| path.file_stem().expect("a name").to_string_lossy().into_owned())
        .collect();
    assert_eq!(there, FILES.map(String::from).into());
}

#[test]
fn hand_made() {
    assert_eq!(replay("hand"), [553, 1, 31]);
}

/// 200,000 extensions of the path, and one more.
#[test]
fn slow() {
    assert_eq!(replay("slow"), [4, 0, 0]);
}

#[test]
fn listed_differences() {
    assert_eq!(replay("differences"), [116, 1, 1]);
}

/// Thirty searches, each with exactly the budgets that it needs, with one less of each, and with none of each.
#[test]
fn limits() {
    assert_eq!(replay("limits"), [210, 0, 0]);
}

#[test]
fn generated() {
    let files = FILES.iter().filter(|file| file.starts_with("generated-"));
    let sums = files.map(|file| replay(file)).fold([0; 3], |sum, counts| std::array::from_fn(|i| sum[i] + counts[i]));
    assert_eq!(sums, [3300, 17, 0]);
}

/// The wanted name as a part of the request: whoever has a path is good for the name, or is refused as the oracle refuses the name.
#[test]
fn wanted_names_in_requests() {
    let mut asked = 0;
    for file in FILES.iter().filter(|file| **file != "slow") {
        for (case, _, due) in recorded(file).iter().filter(|(case, ..)| case.vetoes.is_none() && !case.revocation) {
            let field = |name: &str| due.split(" | ").find_map(|part| part.strip_prefix(name)).expect("a field");
            if field("parse ") != "ok" || case.names.is_empty() {
                continue;
            }
            let path = field("path ");
            for (wanted, said) in case.names.iter().zip(field("name ").split(", ")) {
                let Some(name) = name_of(wanted) else { continue };
                let expected = match (path.strip_prefix("err "), said) {
                    (Some(refusal), _) => refusal,
                    (None, "invalid") => "MalformedDnsIdentifier",
                    (None, said) => said.strip_prefix("err ").unwrap_or(said),
                };
                assert_eq!(judged(case, name), expected, "{}: {wanted:?}", case.name);
                asked += 1;
            }
        }
    }
    assert!(asked > 5000, "only {asked} names");
}

/// None for an address of a length that no request can hold.
fn name_of(wanted: &NameIn) -> Option<Name<'_>> {
    match wanted {
        NameIn::Dns(text) => Some(Name::Dns(text)),
        NameIn::Ip(bytes) => {
            let v4 = bytes.as_slice().try_into().map(Name::V4);
            v4.or_else(|_| bytes.as_slice().try_into().map(Name::V6)).ok()
        }
    }
}

fn judged(case: &Case, name: Name<'_>) -> String {
    let intermediates: Vec<Bytes> = case.intermediates.iter().map(Bytes::from).collect();
    let distrusted: Vec<Bytes> = case.distrusted.iter().map(Bytes::from).collect();
    let anchors: AnchorVec = case
        .anchors
        .iter()
        .filter_map(|given| match given {
            AnchorIn::Raw { subject, key, constraints } => {
                Some(Anchor { subject, subject_public_key_info: key, name_constraints: constraints.as_deref() })
            }
            AnchorIn::Certificate(certificate) => Anchor::from_certificate(certificate).ok(),
        })
        .collect();
    let request = Request {
        end_entity: &case.end_entity,
        intermediates: &intermediates,
        anchors: anchors.list(),
        distrusted: &distrusted,
        time: case.time,
        purpose: Purpose { identifier: &case.purpose, demanded: case.demanded },
        name: Some(name),
        budgets: case.budgets.map_or_else(Budgets::default, |[signatures, extensions, comparisons]| Budgets {
            signatures,
            extensions,
            comparisons,
        }),
    };
    match request.judge(&mut |question: &Question| toy::check(question)) {
        Ok(_) => "ok".into(),
        Err(refusal) => format!("{refusal:?}"),
    }
}
