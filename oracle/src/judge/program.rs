// What the program `plan` prints for one input: a query record of kind 20, then the sheet.
// States document 01's paragraph on the program; the size of its input buffer is given.

use super::{call, tape};
use crate::answer::{End, Outcome, PlanFn};
use crate::sheet::Query;

const QUERY_LENGTH: usize = 54;
const QUERY_KIND: u16 = 20;

/// The query and where the sheet begins, if the first record is a whole query.
pub fn split(input: &[u8]) -> Option<(Query, usize)> {
    let u32_at = |at: usize| u32::from_le_bytes(input[at..at + 4].try_into().unwrap());
    let f64_at = |at: usize| f64::from_le_bytes(input[at..at + 8].try_into().unwrap());
    if input.len() < QUERY_LENGTH {
        return None;
    }
    let length = u32_at(0) as usize;
    let kind = u16::from_le_bytes([input[4], input[5]]);
    if length < QUERY_LENGTH || length > input.len() || (length - QUERY_LENGTH) % 4 != 0 {
        return None;
    }
    if kind != QUERY_KIND {
        return None;
    }
    let query = Query {
        root: u32_at(6),
        depth: u32_at(10),
        view: [f64_at(14), f64_at(22), f64_at(30), f64_at(38)],
        zoom: f64_at(46),
        hidden: (QUERY_LENGTH..length).step_by(4).map(u32_at).collect(),
    };
    Some((query, length))
}

/// All that `plan` prints.
pub fn program(plan: PlanFn, input: &[u8], buffer: usize) -> Outcome {
    let without = |text: &str, end| Outcome {
        text: text.as_bytes().to_vec(),
        end,
        sheet: None,
        query: None,
        run: None,
    };
    if input.len() > buffer {
        return without("too long\n", End::TooLong);
    }
    let Some((query, start)) = split(input) else {
        return without("no query\n", End::NoQuery);
    };
    match call::plan(plan, &input[start..], &query) {
        Err(refusal) => {
            let line = format!("refused {} {}\n", refusal.number, refusal.offset);
            Outcome { query: Some(query), ..without(&line, End::Refused(refusal)) }
        }
        Ok((sheet, run, tape)) => Outcome {
            text: tape::print(&tape),
            end: End::Planned,
            sheet: Some(sheet),
            query: Some(query),
            run: Some(run),
        },
    }
}
