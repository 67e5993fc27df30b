//! A case made ready for Pathjudge: what a caller has at hand before it asks is not timed.
use crate::What;
use cases::case::{AnchorIn, Case};
use cases::toy;
use pathjudge::{Anchor, AnchorVec, Budgets, Bytes, Purpose, Question, Request, Row};
use std::hint::black_box;
use std::time::{Duration, Instant};

pub struct Ready<'a> {
    case: &'a Case,
    intermediates: Vec<Bytes<'a>>,
    anchors: AnchorVec<'a>,
}

impl<'a> Ready<'a> {
    pub fn of(case: &'a Case) -> Self {
        let anchor = |given: &'a AnchorIn| match given {
            AnchorIn::Raw { subject, key, constraints } => {
                Anchor { subject, subject_public_key_info: key, name_constraints: constraints.as_deref() }
            }
            AnchorIn::Certificate(_) => panic!("{}: anchors in parts, for the decision is timed alone", case.name),
        };
        Self {
            case,
            intermediates: case.intermediates.iter().map(Bytes::from).collect(),
            anchors: case.anchors.iter().map(anchor).collect(),
        }
    }

    /// So many in a row, and how long they took.
    pub fn batch(&self, what: What, count: u32) -> Duration {
        let request = Request {
            end_entity: &self.case.end_entity,
            intermediates: &self.intermediates,
            anchors: self.anchors.list(),
            distrusted: &[],
            time: self.case.time,
            purpose: Purpose { identifier: &self.case.purpose, demanded: self.case.demanded },
            name: None,
            budgets: Budgets::default(),
        };
        let mut rows = vec![Row::EMPTY; self.intermediates.len() + 1];
        let start = Instant::now();
        for _ in 0..count {
            match what {
                What::Parse => black_box(pathjudge::read(black_box(request.end_entity)).is_ok()),
                What::Decide => black_box(black_box(&request).judge_in(&mut rows, &mut |question: &Question| toy::check(question)).is_ok()),
            };
        }
        start.elapsed()
    }
}
