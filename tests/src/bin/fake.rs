//! A program that answers from the model, as `replay`, as `probe`, as
//! `write_frame` or as `readback`, and wrongly in one way if asked to. The
//! driver tests itself on it.

use outside_model::model::shows::PROGRAMS;
use outside_model::model::wrong::{by_name, Wrong};
use outside_model::model::Model;
use std::io::{self, Read, Write};
use std::process::ExitCode;

fn main() -> ExitCode {
    let words: Vec<String> = std::env::args().skip(1).collect();
    let words: Vec<&str> = words.iter().map(String::as_str).collect();
    let (part, wrong) = match words[..] {
        [part] => (part, None),
        [part, "--wrong", kind] if by_name(kind).is_some() => (part, by_name(kind)),
        _ => return usage(),
    };
    let model = Model::with(wrong);
    let mut input = Vec::new();
    if io::stdin().read_to_end(&mut input).is_err() {
        return ExitCode::FAILURE;
    }
    let (output, errors) = match part {
        "replay" => (text(&model, &model.listing(&input).1), String::new()),
        "probe" => (text(&model, &lines(&model, &input)), String::new()),
        "write" => frames(&model, &input),
        "readback" => (text(&model, &model.readback(&input).output), String::new()),
        _ => return usage(),
    };
    if model.has(Wrong::Chatter) {
        eprintln!("working");
    }
    eprint!("{errors}");
    // A reader that has seen enough closes the pipe; that ends the work.
    let _ = print(&model, &output);
    let refused = !errors.is_empty() && model.has(Wrong::RefusedStatus);
    ExitCode::from(match model.has(Wrong::BadStatus) {
        true => 3,
        false => u8::from(refused),
    })
}

fn usage() -> ExitCode {
    eprintln!("fake {} [--wrong KIND]", PROGRAMS.join("|"));
    ExitCode::from(2)
}

fn lines(model: &Model, input: &[u8]) -> String {
    let replies = model.replies(input);
    replies
        .iter()
        .map(|reply| format!("{}\n", reply.line))
        .collect()
}

fn text(model: &Model, text: &str) -> Vec<u8> {
    dressed(model, text).into_bytes()
}

/// Here the text is on standard error.
fn frames(model: &Model, input: &[u8]) -> (Vec<u8>, String) {
    let written = model.written(input);
    let errors = dressed(model, &written.errors);
    if model.has(Wrong::Silent) {
        (Vec::new(), errors)
    } else {
        (written.output, errors)
    }
}

fn print(model: &Model, output: &[u8]) -> io::Result<()> {
    let mut out = io::stdout().lock();
    out.write_all(output)?;
    while model.has(Wrong::Endless) {
        out.write_all(b"and so on\n")?;
    }
    out.flush()
}

/// The mistakes of printing itself.
fn dressed(model: &Model, text: &str) -> String {
    if model.has(Wrong::Silent) {
        String::new()
    } else if model.has(Wrong::NoLastNewline) {
        text.trim_end_matches('\n').to_string()
    } else if model.has(Wrong::CarriageReturn) {
        text.replace('\n', "\r\n")
    } else if model.has(Wrong::TrailingBlank) {
        text.replace('\n', " \n")
    } else if model.has(Wrong::ExtraLine) {
        format!("{text}\n")
    } else {
        text.to_string()
    }
}
