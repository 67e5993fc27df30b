//! Answers cases through the crate `pathjudge`, in the oracle's own format, so that `diff` compares the two.
pub mod case;
pub mod toy;

use case::{AnchorIn, Case, NameIn};
use pathjudge::{Anchor, AnchorVec, Answer, Budgets, Bytes, Name, Party, Path, Purpose, Question, Refusal, Request, Row, Search, State};
use std::fmt::Display;

/// The oracle's line for a case. With revocation lists nothing is decided, since they cannot be read yet: the line says that alone.
pub fn answer(case: &Case) -> String {
    answer_in(case, usize::MAX)
}

/// The same, found with room for what is read of so many certificates.
pub fn answer_in(case: &Case, most: usize) -> String {
    if case.revocation {
        return format!("{} | crls unsupported", case.name);
    }
    let anchors = Anchors::of(case);
    let read = pathjudge::read(&case.end_entity);
    let run = match read {
        Ok(()) => Run::of(case, &anchors, most),
        Err(_) => Run::default(),
    };
    let names = match read {
        Ok(()) => case.names.iter().map(|name| name_answer(case, name)).collect(),
        Err(_) => vec![],
    };
    let mut line = format!(
        "{} | parse {} | path {} | q {} | used {} {} {} | name {}",
        case.name,
        outcome(read),
        run.end.as_deref().unwrap_or("-"),
        joined(&run.questions, " "),
        run.used[0],
        run.used[1],
        run.used[2],
        joined(&names, ", "),
    );
    if anchors.said.iter().any(|said| said != RAW) {
        line += &format!(" | anchors {}", anchors.said.join(","));
    }
    if case.vetoes.is_some() {
        line += &format!(" | found {}", joined(&run.offers, "; "));
    }
    if case.budgets.is_some() {
        line += " | traced-only"; // only the oracle's traced copy can be given budgets
    }
    line
}

const RAW: &str = "raw";

/// The anchors that can be read, each with its number in the case, and how each was read.
struct Anchors<'a> {
    list: AnchorVec<'a>,
    numbers: Vec<usize>,
    said: Vec<String>,
}

impl<'a> Anchors<'a> {
    fn of(case: &'a Case) -> Self {
        let mut anchors = Self { list: AnchorVec::default(), numbers: vec![], said: vec![] };
        for (number, given) in case.anchors.iter().enumerate() {
            let (anchor, said) = match given {
                AnchorIn::Raw { subject, key, constraints } => {
                    let anchor = Anchor { subject, subject_public_key_info: key, name_constraints: constraints.as_deref() };
                    (Some(anchor), RAW.into())
                }
                AnchorIn::Certificate(certificate) => match Anchor::from_certificate(certificate) {
                    Ok(anchor) => (Some(anchor), "ok".into()),
                    Err(refusal) => (None, format!("{refusal:?}")),
                },
            };
            anchors.said.push(said);
            if let Some(anchor) = anchor {
                anchors.list.extend([anchor]);
                anchors.numbers.push(number);
            }
        }
        anchors
    }

    fn party(&self, party: Party) -> String {
        match party {
            Party::Anchor(number) => format!("a{}", self.numbers[number]),
            Party::Intermediate(number) => format!("i{number}"),
            Party::EndEntity => "ee".into(),
        }
    }

    fn path(&self, path: &Path) -> String {
        format!("anchor={} path={}", self.numbers[path.anchor()], joined(path.intermediates(), ","))
    }
}

/// A search from its beginning to its end, as the oracle writes it down.
#[derive(Default)]
struct Run {
    questions: Vec<String>,
    offers: Vec<String>,
    end: Option<String>,
    used: [u64; 3],
}

impl Run {
    fn of(case: &Case, anchors: &Anchors, most: usize) -> Self {
        let mut rows = vec![Row::EMPTY; most.min(case.intermediates.len() + 1)];
        let intermediates: Vec<Bytes> = case.intermediates.iter().map(Bytes::from).collect();
        let distrusted: Vec<Bytes> = case.distrusted.iter().map(Bytes::from).collect();
        let request = Request {
            end_entity: &case.end_entity,
            intermediates: &intermediates,
            anchors: anchors.list.list(),
            distrusted: &distrusted,
            time: case.time,
            purpose: Purpose { identifier: &case.purpose, demanded: case.demanded },
            name: None,
            budgets: case.budgets.map_or(Budgets::default(), |[signatures, extensions, comparisons]| Budgets {
                signatures,
                extensions,
                comparisons,
            }),
        };
        let mut search = Search::begin(request, &mut rows);
        let mut vetoes = case.vetoes.unwrap_or(0);
        let mut run = Self::default();
        let end = loop {
            match search.state() {
                State::Ask(question) => {
                    let answer = toy::check(&question);
                    let (signer, subject) = (anchors.party(question.signer), anchors.party(question.subject));
                    run.questions.push(format!("{signer}>{subject}{}", mark(&question, answer)));
                    search.answer(answer);
                }
                State::Offer(path) => {
                    run.offers.push(anchors.path(&path));
                    search.reply(if vetoes == 0 { Ok(()) } else { Err(Refusal::UnknownIssuer) });
                    vetoes = vetoes.saturating_sub(1);
                }
                State::Found(path) => break format!("ok {}", anchors.path(&path)),
                State::Refused(refusal) => break outcome(Err(refusal)),
            }
        };
        let used = search.used();
        Self { end: Some(end), used: [used.signatures, used.extensions, used.comparisons], ..run }
    }
}

fn mark(question: &Question, answer: Answer) -> String {
    match (answer, question.key) {
        (Answer::Yes, _) => String::new(),
        (Answer::Wrong, _) => "!wrong".into(),
        (Answer::UnknownAlgorithm, _) => "!alg".into(),
        (Answer::KeyUnreadable, Err(refusal)) => format!("!key:{refusal:?}"),
        _ => "!keyalg".into(),
    }
}

fn name_answer(case: &Case, name: &NameIn) -> String {
    let name = match name {
        NameIn::Dns(text) => Some(Name::Dns(text)),
        NameIn::Ip(bytes) => {
            let v4 = bytes.as_slice().try_into().map(Name::V4);
            v4.or_else(|_| bytes.as_slice().try_into().map(Name::V6)).ok()
        }
    };
    match name.map(|name| pathjudge::good_for(&case.end_entity, &name)) {
        // the oracle's type of names has no malformed ones
        None | Some(Err(Refusal::MalformedDnsIdentifier)) => "invalid".into(),
        Some(result) => outcome(result),
    }
}

fn outcome(result: Result<(), Refusal>) -> String {
    match result {
        Ok(()) => "ok".into(),
        Err(refusal) => format!("err {refusal:?}"),
    }
}

fn joined<T: Display>(parts: &[T], between: &str) -> String {
    match parts {
        [] => "-".into(),
        _ => parts.iter().map(T::to_string).collect::<Vec<_>>().join(between),
    }
}
