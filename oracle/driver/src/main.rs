//! The oracle: rustls-webpki 0.103.16, asked with a toy signature scheme. docs/ORACLE.md has the format of cases and answers.
//! Usage: oracle FILE ('-': standard input) answers cases; oracle --batches FILE times them.
mod batches;
mod case;
mod toy;

mod plain {
    use webpki as w;
    include!("engine.rs");
}
mod traced {
    use webpki_traced as w;
    include!("engine.rs");
}

use case::Case;
use std::cell::RefCell;
use std::collections::HashMap;
use std::io::{BufRead, BufReader, BufWriter, Write};
use std::panic::{catch_unwind, AssertUnwindSafe};

#[derive(Default, Clone, Debug)]
pub struct Outcome {
    pub parse: String,
    pub path: String,
    pub names: Vec<String>,
    pub anchors: Vec<String>,
    pub crls: Vec<String>,
    pub found: Vec<String>,
    pub calls: Vec<toy::Call>,
}

/// The variant's name; of TrailingData also the type; of the rest no context.
pub fn error_name(e: &impl std::fmt::Debug) -> String {
    let s = format!("{e:?}");
    if s.starts_with("TrailingData(") {
        return s;
    }
    s.split(['(', ' ', '{']).next().unwrap().to_string()
}

thread_local! {
    static KEPT: RefCell<HashMap<Vec<u8>, &'static [u8]>> = Default::default();
    static KEPT_LISTS: RefCell<HashMap<Vec<Vec<u8>>, &'static [&'static [u8]]>> = Default::default();
}

/// The crate wants 'static purposes; each different one is kept once.
pub fn keep(b: &[u8]) -> &'static [u8] {
    KEPT.with(|k| *k.borrow_mut().entry(b.to_vec()).or_insert_with(|| Box::leak(b.into())))
}

/// The same of a list of keys.
fn keep_list(list: &[Vec<u8>]) -> &'static [&'static [u8]] {
    let leaked = || -> &'static [&'static [u8]] { Box::leak(list.iter().map(|b| keep(b)).collect()) };
    KEPT_LISTS.with(|k| *k.borrow_mut().entry(list.to_vec()).or_insert_with(leaked))
}

fn guarded(f: impl FnOnce() -> Outcome) -> Outcome {
    catch_unwind(AssertUnwindSafe(f)).unwrap_or_else(|_| Outcome { parse: "?".into(), path: "panic".into(), ..Default::default() })
}

fn or_dash(v: Vec<String>, sep: &str) -> String {
    if v.is_empty() {
        "-".into()
    } else {
        v.join(sep)
    }
}

/// The crate's own: signatures, extensions of the path, comparisons.
const BUDGETS: [usize; 3] = [100, 200_000, 250_000];

fn answer(case: &Case) -> String {
    use webpki_traced::trace::LOG;
    LOG.with(|l| {
        let l = &mut *l.borrow_mut();
        l.questions.clear();
        l.used = [0; 3];
        l.limits = case.budget.unwrap_or(BUDGETS);
        l.distrusted = (!case.distrust.is_empty()).then(|| keep_list(&case.distrust));
    });
    let t = guarded(|| traced::run(case));
    let (questions, used) = LOG.with(|l| {
        let l = &mut *l.borrow_mut();
        (std::mem::take(&mut l.questions), l.used)
    });

    let mut warn = String::new();
    let settled = case.budget.is_none() && case.distrust.is_empty(); // of the unchanged crate neither can be set
    let decided = match settled {
        false => t,
        true => {
            let p = guarded(|| plain::run(case));
            let same = p.parse == t.parse
                && p.path == t.path
                && p.names == t.names
                && p.anchors == t.anchors
                && p.crls == t.crls
                && p.found == t.found;
            let reached: Vec<_> = questions
                .iter()
                .filter(|q| q.2.is_ok() || matches!(q.2, Err(webpki_traced::Error::InvalidSignatureForPublicKey)))
                .collect();
            let place = |at| case.place(at);
            let same_calls = reached.len() == p.calls.len()
                && reached.iter().zip(&p.calls).all(|(q, c)| {
                    c.key.is_none_or(|key| place(key) == place(q.0)) && place(c.signed) == place(q.1) && c.right == q.2.is_ok()
                });
            if !same || (p.path != "panic" && !same_calls) {
                warn = format!(" | DISAGREE plain={p:?} traced={t:?}");
            }
            p
        }
    };

    let q: Vec<String> = questions
        .iter()
        .map(|(key, data, a)| {
            let mark = match a {
                Ok(()) => String::new(),
                Err(e) => match error_name(e).as_str() {
                    "InvalidSignatureForPublicKey" => "!wrong".into(),
                    "UnsupportedSignatureAlgorithmContext" => "!alg".into(),
                    "UnsupportedSignatureAlgorithmForPublicKeyContext" => "!keyalg".into(),
                    other => format!("!key:{other}"),
                },
            };
            format!("{}>{}{mark}", case.place(*key), case.place(*data))
        })
        .collect();
    let mut s = format!(
        "{} | parse {} | path {} | q {} | used {} {} {} | name {}",
        case.name,
        decided.parse,
        if decided.path.is_empty() { "-" } else { &decided.path },
        or_dash(q, " "),
        used[0],
        used[1],
        used[2],
        or_dash(decided.names, ", "),
    );
    if decided.anchors.iter().any(|a| a != "raw") {
        s += &format!(" | anchors {}", decided.anchors.join(","));
    }
    if !decided.crls.is_empty() {
        s += &format!(" | crls {}", decided.crls.join(","));
    }
    if case.veto.is_some() {
        s += &format!(" | found {}", or_dash(decided.found, "; "));
    }
    if case.budget.is_some() {
        s += " | traced-only";
    }
    s + &warn
}

fn main() {
    let args: Vec<String> = std::env::args().skip(1).collect();
    let file = |p: &str| -> Box<dyn BufRead> {
        match p {
            "-" => Box::new(BufReader::new(std::io::stdin())),
            p => Box::new(BufReader::with_capacity(1 << 20, std::fs::File::open(p).expect(p))),
        }
    };
    if let [first, path] = args.as_slice() {
        assert_eq!(first, "--batches");
        let mut cases = vec![];
        case::each(file(path), |c| cases.push(c.expect("case")));
        return batches::serve(&cases);
    }
    let mut out = BufWriter::new(std::io::stdout());
    case::each(file(args.first().map_or("-", String::as_str)), |c| {
        let line = match c {
            Ok(c) => answer(&c),
            Err(e) => format!("{e} | BAD CASE"),
        };
        writeln!(out, "{line}").expect("write");
    });
}
