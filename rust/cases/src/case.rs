//! Cases as text: the format of the oracle, read line by line.
use std::io::BufRead;

/// A trust anchor as a case gives it.
#[derive(Clone, Debug)]
pub enum AnchorIn {
    /// In parts.
    Raw { subject: Vec<u8>, key: Vec<u8>, constraints: Option<Vec<u8>> },
    /// As a certificate, out of which it is to be read.
    Certificate(Vec<u8>),
}

/// A name to look for. Its bytes may be no name at all.
#[derive(Clone, Debug)]
pub enum NameIn {
    Dns(Vec<u8>),
    Ip(Vec<u8>),
}

/// One request, with names that are looked for apart from it.
#[derive(Clone, Debug)]
pub struct Case {
    pub name: String,
    pub end_entity: Vec<u8>,
    pub intermediates: Vec<Vec<u8>>,
    pub anchors: Vec<AnchorIn>,
    pub time: u64,
    pub purpose: Vec<u8>,
    pub demanded: bool,
    pub names: Vec<NameIn>,
    pub distrusted: Vec<Vec<u8>>,
    /// Whether there are revocation lists, which are not read yet.
    pub revocation: bool,
    /// So many finished paths are refused by the caller.
    pub vetoes: Option<usize>,
    /// Signatures, extensions, comparisons.
    pub budgets: Option<[u64; 3]>,
}

const DEFAULT_TIME: u64 = 1_700_000_000;

fn unhex(text: &str) -> Result<Vec<u8>, String> {
    if text == "-" {
        return Ok(vec![]);
    }
    let digit = |c: u8| char::from(c).to_digit(16).ok_or_else(|| format!("hex {c}"));
    let pairs = text.as_bytes().chunks_exact(2);
    if !pairs.remainder().is_empty() {
        return Err("odd hex".into());
    }
    pairs.map(|pair| Ok((digit(pair[0])? * 16 + digit(pair[1])?) as u8)).collect()
}

impl Case {
    fn new(name: &str) -> Self {
        let purpose = pathjudge::Purpose::SERVER_AUTHENTICATION;
        Self {
            name: name.into(),
            end_entity: vec![],
            intermediates: vec![],
            anchors: vec![],
            time: DEFAULT_TIME,
            purpose: purpose.identifier.into(),
            demanded: purpose.demanded,
            names: vec![],
            distrusted: vec![],
            revocation: false,
            vetoes: None,
            budgets: None,
        }
    }

    fn line(&mut self, line: &str) -> Result<(), String> {
        let words: Vec<&str> = line.split_whitespace().collect();
        let word = |i: usize| words.get(i).copied();
        let hex = |i: usize| unhex(word(i).unwrap_or("-"));
        let number = |i: usize| word(i).ok_or("number missing")?.parse::<u64>().map_err(|e| e.to_string());
        match words[0] {
            "ee" => self.end_entity = hex(1)?,
            "int" => self.intermediates.push(hex(1)?),
            "anchor" => self.anchors.push(AnchorIn::Raw {
                subject: hex(1)?,
                key: hex(2)?,
                constraints: match word(3).unwrap_or("-") {
                    "-" => None,
                    "empty" => Some(vec![]),
                    text => Some(unhex(text)?),
                },
            }),
            "anchorcert" => self.anchors.push(AnchorIn::Certificate(hex(1)?)),
            "time" => self.time = number(1)?,
            "eku" => {
                self.purpose = hex(1)?;
                self.demanded = match word(2) {
                    Some("required") => true,
                    Some("ifpresent") => false,
                    _ => return Err("eku OID required|ifpresent".into()),
                }
            }
            "name" => self.names.push(match word(1) {
                Some("dns") => NameIn::Dns(hex(2)?),
                Some("ip") => NameIn::Ip(hex(2)?),
                _ => return Err("name dns|ip".into()),
            }),
            "distrust" => self.distrusted.push(hex(1)?),
            "crl" => self.revocation = true,
            "revocation" => {} // what to do with the lists
            "veto" => self.vetoes = Some(number(1)? as usize),
            "budget" => self.budgets = Some([number(1)?, number(2)?, number(3)?]),
            other => return Err(format!("word {other}")),
        }
        Ok(())
    }
}

/// Hands each case of a text to `take`, or the name of one that is malformed with what is wrong. A case ends with `end`, a blank line, the next
/// case or the end of the text.
pub fn each(text: impl BufRead, mut take: impl FnMut(Result<Case, String>)) {
    let mut open: Option<Result<Case, String>> = None;
    for line in text.lines() {
        let line = line.expect("the text can be read");
        let line = line.trim();
        let begins = line.strip_prefix("case ");
        if line.is_empty() || line == "end" || begins.is_some() {
            open.take().into_iter().for_each(&mut take);
            open = begins.map(|name| Ok(Case::new(name.trim())));
        } else if !line.starts_with('#') {
            if let Some(Ok(case)) = &mut open {
                if let Err(e) = case.line(line) {
                    open = Some(Err(format!("{}: {e}", case.name)));
                }
            }
        }
    }
    open.into_iter().for_each(take);
}

#[cfg(test)]
mod tests {
    use super::*;

    fn read(text: &str) -> Vec<Result<Case, String>> {
        let mut cases = vec![];
        each(text.as_bytes(), |case| cases.push(case));
        cases
    }

    #[test]
    fn a_case_has_four_ways_to_end() {
        let cases = read("case a\nend\nignored\ncase b\n\n# a remark\ncase c\ncase d e");
        let names: Vec<String> = cases.into_iter().map(|case| case.expect("a case").name).collect();
        assert_eq!(names, ["a", "b", "c", "d e"]);
    }

    #[test]
    fn what_is_malformed_is_named_with_its_first_fault() {
        let cases = read("case a\nee 0\nwhat\ncase b\nee 0a");
        assert_eq!(cases[0].as_ref().err().map(String::as_str), Some("a: odd hex"));
        assert_eq!(cases[1].as_ref().expect("a case").end_entity, [0x0a]);
    }

    #[test]
    fn constraints_that_are_empty_are_not_none() {
        let cases = read("case a\nanchor 01 02 -\nanchor 01 02 empty\nanchor 01 02 a000");
        let constraints = cases[0].as_ref().expect("a case").anchors.iter().map(|anchor| match anchor {
            AnchorIn::Raw { constraints, .. } => constraints.clone(),
            AnchorIn::Certificate(_) => panic!("an anchor in parts"),
        });
        assert_eq!(constraints.collect::<Vec<_>>(), [None, Some(vec![]), Some(vec![0xa0, 0x00])]);
    }
}
