//! One piece of work: what a program prints for it, held to what is due.

use super::compare::{compare, part, Due, Gap};
use super::difference::Difference;
use super::examples::Example;
use super::program::Program;
use crate::model::probe::Reply;
use crate::model::RIGHT;

/// The model must agree with the example before the program is asked.
pub fn judge_example(program: &Program, example: &Example) -> Result<(), Box<Difference>> {
    let (_, listing) = RIGHT.listing(&example.capture);
    if let Some(gap) = part(&example.listing, listing.as_bytes()) {
        return Err(Box::new(Difference {
            work: format!("model example {}", example.name),
            sent: example.capture.clone(),
            request: None,
            gap,
        }));
    }
    let work = format!("replay example {}", example.name);
    let due = Due::text(&example.listing);
    judge_output(program, work, example.capture.clone(), &due)
}

pub fn judge_batch(
    program: &Program,
    number: usize,
    sent: Vec<u8>,
    replies: &[Reply],
) -> Result<(), Box<Difference>> {
    let mut expected = String::new();
    for reply in replies {
        expected.push_str(&reply.line);
        expected.push('\n');
    }
    let work = format!("probe batch {number}");
    let due = Due::text(expected.as_bytes());
    judge_output(program, work, sent, &due).map_err(|mut difference| {
        let line = difference.gap.line;
        difference.request = replies
            .get(line)
            .map(|reply| (line, difference.sent[reply.request.clone()].to_vec()));
        difference
    })
}

pub fn judge_output(
    program: &Program,
    work: String,
    sent: Vec<u8>,
    due: &Due,
) -> Result<(), Box<Difference>> {
    let gap = match program.run(&sent, due.output.len()) {
        Ok(run) => compare(due, &run),
        Err(error) => Some(Gap {
            line: 0,
            expected: "a run of the program".into(),
            came: error.to_string(),
        }),
    };
    match gap {
        None => Ok(()),
        Some(gap) => Err(Box::new(Difference {
            work,
            sent,
            request: None,
            gap,
        })),
    }
}
