//! The Rust reference of the port: the module as published, as patched but for
//! the second end, and as patched, run on the program's text form and compared
//! on generated meshes.

#[allow(dead_code)]
mod accept;
mod account;
mod call;
mod compare;
mod damage;
mod files;
mod generators;
mod input;
mod large;
mod mesh;
#[allow(dead_code)]
#[allow(clippy::too_many_arguments)] // its functions have the parameters of the published ones
mod patched;
#[allow(dead_code)]
mod published;
mod random;
mod records;
mod replay;
mod replays;
mod small;
#[cfg(test)]
mod table;
mod text;
mod trace;

/// The patched module with some patches taken back by the build script.
macro_rules! variant {
    ($name:ident, $file:literal) => {
        #[allow(dead_code)]
        mod $name {
            include!(concat!(env!("OUT_DIR"), $file));
        }
    };
}
variant!(bare, "/bare.rs");
variant!(without_asked, "/without_asked.rs");
variant!(without_cosine, "/without_cosine.rs");
variant!(without_off_front, "/without_off_front.rs");
variant!(without_second_end, "/without_second_end.rs");

use std::io::{Error, Read, Result, Write};
use std::path::Path;

const USAGE: &str = "usage:
  run                                      answer the text on standard input
  cases SEED COUNT DIR [KIND]              write texts with their answers
  call                                     answer the library's call on standard input
  calls SEED COUNT DIR                     write calls of the library with their answers
  set-calls SEED COUNT DIR                 the same with quality sets
  joint-calls SEED COUNT DIR               the same with joints
  grid-calls SEED COUNT DIR                the same in the grid profile
  trace-calls SEED COUNT DIR               the same with a trace lent
  trace                                    the trace of the library's call on standard input
  replay                                   answer the replay on standard input
  replays SEED COUNT DIR                   write replays with their answers
  accept                                   answer the calls of the acceptance on standard input, a line each
  accepts SEED EACH DIR                    write calls of the acceptance with their answers, so many of each kind
  meshes SEED TRIANGLES [DIR]              make large meshes, print their hashes
  small                                    the hashes that the crate `acceptance` holds
  compare SEED COUNT [--kind KIND] [--save DIR]
                                           run published, patched but for the second end, and patched
  parts                                    the three runs of the text on standard input, in short
  check DIR ..                             recompute stored answers";

/// Answers the text on standard input. A byte over the limit is enough to refuse;
/// the rest is read to its end and dropped.
fn run() -> Result<()> {
    let mut text = Vec::new();
    let most = text::MOST_BYTES as u64 + 1;
    let mut from = std::io::stdin().lock();
    from.by_ref().take(most).read_to_end(&mut text)?;
    std::io::copy(&mut from, &mut std::io::sink())?;
    std::io::stdout().write_all(&text::reply(&text))
}

/// What a text on standard input is answered.
fn on_input(reply: impl Fn(&[u8]) -> Option<Vec<u8>>, what: &str) -> Result<()> {
    let mut text = Vec::new();
    std::io::stdin().lock().read_to_end(&mut text)?;
    let answer = reply(&text).ok_or_else(|| Error::other(what))?;
    std::io::stdout().write_all(&answer)
}

fn compare(seed: u64, count: u64, options: &[&str]) -> Result<()> {
    let option = |name: &str| {
        let place = options.iter().position(|&o| o == name)?;
        options.get(place + 1).copied()
    };
    let kind = option("--kind").map(generators::kind).transpose()?;
    let mut all = compare::Comparison::default();
    for case in 0..count {
        let kind = generators::of_case(kind, case);
        let one = std::panic::AssertUnwindSafe(|| all.case(seed, case, kind));
        if std::panic::catch_unwind(one).is_err() {
            return Err(Error::other(format!(
                "seed {seed}, case {case}, kind {}",
                kind.0
            )));
        }
    }
    let good = all.print();
    if let Some(folder) = option("--save") {
        all.save(Path::new(folder))?;
    }
    if good {
        Ok(())
    } else {
        Err(Error::other("two runs part otherwise than by a patch"))
    }
}

fn number(word: &str) -> Result<u64> {
    word.parse()
        .map_err(|_| Error::other(format!("not a number: {word}")))
}

/// Calls with a set, with joints, in the grid profile or with a trace.
fn further(what: call::Further, seed: &str, count: &str, folder: &str) -> Result<()> {
    call::further_calls(what, number(seed)?, number(count)?, Path::new(folder))
}

fn command(words: &[&str]) -> Result<()> {
    match *words {
        ["run"] => run(),
        ["call"] => on_input(call::reply, "not a call"),
        ["trace"] => on_input(
            |text| call::traced(text).map(String::into_bytes),
            "not a call, or refused",
        ),
        ["replay"] => on_input(replays::reply, "not a replay"),
        ["replays", seed, count, folder] => {
            replays::replays(number(seed)?, number(count)?, Path::new(folder))
        }
        ["accept"] => on_input(accept::stored::reply, "not calls of an acceptance"),
        ["accepts", seed, each, folder] => {
            accept::stored::write(number(seed)?, number(each)? as usize, Path::new(folder))
        }
        ["parts"] => on_input(
            |text| compare::parts(text).map(String::into_bytes),
            "refused before a run",
        ),
        ["small"] => small::print(),
        ["cases", seed, count, folder] => {
            files::cases(number(seed)?, number(count)?, Path::new(folder), None)
        }
        ["cases", seed, count, folder, kind] => {
            files::cases(number(seed)?, number(count)?, Path::new(folder), Some(kind))
        }
        ["calls", seed, count, folder] => {
            call::calls(number(seed)?, number(count)?, Path::new(folder))
        }
        ["set-calls", seed, count, folder] => further(call::Further::Set, seed, count, folder),
        ["grid-calls", seed, count, folder] => further(call::Further::Grid, seed, count, folder),
        ["trace-calls", seed, count, folder] => further(call::Further::Trace, seed, count, folder),
        ["joint-calls", seed, count, folder] => further(call::Further::Joints, seed, count, folder),
        ["meshes", seed, triangles] => {
            large::meshes(number(seed)?, number(triangles)? as usize, None)
        }
        ["meshes", seed, triangles, folder] => large::meshes(
            number(seed)?,
            number(triangles)? as usize,
            Some(Path::new(folder)),
        ),
        ["compare", seed, count, ref options @ ..] => {
            compare(number(seed)?, number(count)?, options)
        }
        ["check", ref folders @ ..] if !folders.is_empty() => folders
            .iter()
            .try_for_each(|folder| files::check(Path::new(folder))),
        _ => Err(Error::other(USAGE)),
    }
}

fn main() {
    let args: Vec<String> = std::env::args().skip(1).collect();
    let words: Vec<&str> = args.iter().map(String::as_str).collect();
    if let Err(error) = command(&words) {
        eprintln!("{error}");
        std::process::exit(1);
    }
}
