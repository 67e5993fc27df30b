//! Cases as text (docs/ORACLE.md): read, and whose bytes begin at a place.
use std::ops::Range;

#[derive(Clone, Debug)]
pub enum AnchorIn {
    Raw { subject: Vec<u8>, spki: Vec<u8>, nc: Option<Vec<u8>> },
    Cert(Vec<u8>),
}

#[derive(Clone, Debug)]
pub enum NameIn {
    Dns(Vec<u8>),
    Ip(Vec<u8>),
}

#[derive(Clone, Debug)]
pub struct Case {
    pub name: String,
    pub ee: Vec<u8>,
    pub ints: Vec<Vec<u8>>,
    pub anchors: Vec<AnchorIn>,
    pub time: u64,
    pub eku: Vec<u8>,
    pub eku_required: bool,
    pub names: Vec<NameIn>,
    pub distrust: Vec<Vec<u8>>,
    pub crls: Vec<Vec<u8>>,
    pub crl_chain: bool,
    pub crl_unknown_allow: bool,
    pub crl_expiry_enforce: bool,
    pub veto: Option<usize>,
    pub budget: Option<[usize; 3]>,
}

pub fn unhex(s: &str) -> Result<Vec<u8>, String> {
    let s = s.as_bytes();
    if s == b"-" {
        return Ok(vec![]); // an empty value
    }
    if s.len() % 2 != 0 {
        return Err("odd hex".into());
    }
    let d = |c: u8| (c as char).to_digit(16).ok_or_else(|| format!("hex {c}"));
    s.chunks(2).map(|p| Ok((d(p[0])? * 16 + d(p[1])?) as u8)).collect()
}

impl Case {
    pub fn new(name: &str) -> Self {
        Self {
            name: name.into(),
            ee: vec![],
            ints: vec![],
            anchors: vec![],
            time: 1_700_000_000,
            eku: vec![0x2b, 6, 1, 5, 5, 7, 3, 1], // server
            eku_required: false,
            names: vec![],
            distrust: vec![],
            crls: vec![],
            crl_chain: true,
            crl_unknown_allow: false,
            crl_expiry_enforce: false,
            veto: None,
            budget: None,
        }
    }

    pub fn line(&mut self, line: &str) -> Result<(), String> {
        let w: Vec<&str> = line.split_whitespace().collect();
        let num = |i: usize| -> Result<u64, String> { w.get(i).ok_or("number missing")?.parse().map_err(|e| format!("{e}")) };
        let hex = |i: usize| -> Result<Vec<u8>, String> { unhex(w.get(i).copied().unwrap_or("-")) };
        match w[0] {
            "ee" => self.ee = hex(1)?,
            "int" => self.ints.push(hex(1)?),
            "anchor" => self.anchors.push(AnchorIn::Raw {
                subject: hex(1)?,
                spki: hex(2)?,
                // "-" is none; "empty" is there, and empty
                nc: match w.get(3).copied().unwrap_or("-") {
                    "-" => None,
                    "empty" => Some(vec![]),
                    h => Some(unhex(h)?),
                },
            }),
            "anchorcert" => self.anchors.push(AnchorIn::Cert(hex(1)?)),
            "time" => self.time = num(1)?,
            "eku" => {
                self.eku = hex(1)?;
                self.eku_required = match w.get(2).copied() {
                    Some("required") => true,
                    Some("ifpresent") => false,
                    _ => return Err("eku OID required|ifpresent".into()),
                }
            }
            "name" => self.names.push(match w.get(1).copied() {
                Some("dns") => NameIn::Dns(hex(2)?),
                Some("ip") => NameIn::Ip(hex(2)?),
                _ => return Err("name dns|ip".into()),
            }),
            "distrust" => self.distrust.push(hex(1)?),
            "crl" => self.crls.push(hex(1)?),
            "revocation" => {
                for o in &w[1..] {
                    match *o {
                        "endentity" => self.crl_chain = false,
                        "chain" => self.crl_chain = true,
                        "allow" => self.crl_unknown_allow = true,
                        "deny" => self.crl_unknown_allow = false,
                        "enforce" => self.crl_expiry_enforce = true,
                        "ignore" => self.crl_expiry_enforce = false,
                        _ => return Err(format!("revocation {o}")),
                    }
                }
            }
            "veto" => self.veto = Some(num(1)? as usize),
            "budget" => self.budget = Some([num(1)? as usize, num(2)? as usize, num(3)? as usize]),
            other => return Err(format!("word {other}")),
        }
        Ok(())
    }

    /// Whose bytes begin here: aK anchor, iK intermediate, ee, cK revocation list.
    pub fn place(&self, at: usize) -> String {
        let hit = |v: &[u8]| {
            let r: Range<*const u8> = v.as_ptr_range();
            at == r.start as usize || (at > r.start as usize && at < r.end as usize)
        };
        for (k, a) in self.anchors.iter().enumerate() {
            let bytes = match a {
                AnchorIn::Raw { spki, .. } => spki,
                AnchorIn::Cert(c) => c,
            };
            if hit(bytes) {
                return format!("a{k}");
            }
        }
        for (k, c) in self.ints.iter().enumerate() {
            if hit(c) {
                return format!("i{k}");
            }
        }
        for (k, c) in self.crls.iter().enumerate() {
            if hit(c) {
                return format!("c{k}");
            }
        }
        if hit(&self.ee) {
            return "ee".into();
        }
        "?".into()
    }
}

/// Feeds each case of the text to `f`. Cases end with "end", a blank line or the end of the text.
pub fn each(text: impl std::io::BufRead, mut f: impl FnMut(Result<Case, String>)) {
    let mut now: Option<Case> = None;
    let mut bad: Option<String> = None;
    let mut finish = |now: &mut Option<Case>, bad: &mut Option<String>| {
        if let Some(c) = now.take() {
            match bad.take() {
                None => f(Ok(c)),
                Some(e) => f(Err(format!("{}: {e}", c.name))),
            }
        }
    };
    for line in text.lines() {
        let line = line.expect("read");
        let line = line.trim();
        if line.is_empty() || line == "end" {
            finish(&mut now, &mut bad);
        } else if line.starts_with('#') {
        } else if let Some(name) = line.strip_prefix("case ") {
            finish(&mut now, &mut bad);
            now = Some(Case::new(name.trim()));
        } else if let Some(c) = now.as_mut() {
            if let Err(e) = c.line(line) {
                bad.get_or_insert(e);
            }
        }
    }
    finish(&mut now, &mut bad);
}
