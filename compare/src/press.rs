//! The program `press` beside a model of it: what it prints for problem files that are as they should be, spoiled, cut, in another order, or noise.

mod draw;
mod hand;
mod model;
mod records;

use crate::Effort;
use crate::random::Random;
use crate::report::Report;
use hand::Said;
use std::fs::{self, File};
use std::io::{Read, Write};
use std::path::{Path, PathBuf};
use std::process::{Command, Stdio};
use std::thread;

/// Names another program to compare than the one that was proved here.
const VARIABLE: &str = "PRESS";

/// How many bytes of an input a difference shows; a longer one is left in a file.
const SHOWN: usize = 400;

/// What the model prints for the bytes on standard input; None where it cannot tell.
pub fn printed() -> Option<String> {
    let mut input = Vec::new();
    std::io::stdin().read_to_end(&mut input).ok()?;
    model::press(&input).map(|due| due.text)
}

pub fn compare(report: &mut Report, random: &mut Random, effort: Effort) {
    let runner = Runner::new();
    let kind = report.kind("press/program");
    let there = runner.program.is_file();
    report.case(kind, there, || {
        format!("there is no {}", runner.program.display())
    });
    report.set_hand_made(true);
    for (name, input, said) in hand::cases() {
        let due = model::press(&input).expect("the model knows a hand-made case");
        let kind = report.kind("press/model-says-what-was-said");
        let agrees = match &said {
            Said::Text(text) => due.text == *text,
            Said::Starts(start) => due.text.starts_with(start),
        };
        report.case(kind, agrees, || format!("{name}: {:?}", due.text));
        one_input(report, &runner, &format!("press/hand/{name}"), &input, None);
    }
    examples(report, &runner);
    report.set_hand_made(false);
    for turn in 0..effort.times(500, 100_000) {
        let (name, input) = draw::input(random);
        let pieces = (turn % 16 == 0).then(|| 1 + random.index(64));
        let name = match pieces {
            Some(_) => "in-pieces",
            None => name,
        };
        one_input(report, &runner, &format!("press/{name}"), &input, pieces);
    }
}

/// The files in examples/press, and what stands beside each.
fn examples(report: &mut Report, runner: &Runner) {
    let folder = Path::new(env!("CARGO_MANIFEST_DIR")).join("../examples/press");
    let files = fs::read_dir(&folder).into_iter().flatten().flatten();
    let mut names: Vec<PathBuf> = files.map(|file| file.path()).collect();
    names.sort();
    for file in names {
        if file.extension().is_none_or(|end| end != "problem") {
            continue;
        }
        let input = fs::read(&file).unwrap_or_default();
        let beside = fs::read_to_string(file.with_extension("out")).unwrap_or_default();
        let due = model::press(&input).map(|due| due.text);
        let kind = report.kind("press/examples-say-what-stands-beside-them");
        report.case(kind, due.as_ref() == Some(&beside), || {
            format!("{}: {due:?}", file.display())
        });
        one_input(report, runner, "press/examples", &input, None);
    }
}

fn one_input(
    report: &mut Report,
    runner: &Runner,
    name: &str,
    input: &[u8],
    pieces: Option<usize>,
) {
    let Some(due) = model::press(input) else {
        report.answer("press/not-modelled");
        return;
    };
    for met in &due.met {
        report.answer(&format!("press/{met}"));
    }
    let ours = runner.run(input, pieces);
    let kind = report.kind(name);
    let agrees = ours.as_ref() == Ok(&due.text);
    report.case(kind, agrees, || {
        let least = shrunk(input, |less| {
            let due = model::press(less);
            due.is_some_and(|due| runner.run(less, None) != Ok(due.text))
        });
        let due = model::press(&least).map_or(due.text, |due| due.text);
        let ours = runner.run(&least, None);
        format!("{}: ours {ours:?}, due {due:?}", runner.shown(&least))
    });
}

/// The input with as many of its bytes left out as can be while it differs.
fn shrunk(input: &[u8], differs: impl Fn(&[u8]) -> bool) -> Vec<u8> {
    let mut least = input.to_vec();
    if !differs(&least) {
        return least;
    }
    let mut length = least.len().max(1);
    while length > 0 {
        let mut at = 0;
        while at + length <= least.len() {
            let less = [&least[..at], &least[at + length..]].concat();
            if differs(&less) {
                least = less;
            } else {
                at += length.min(8);
            }
        }
        length /= 2;
    }
    least
}

struct Runner {
    program: PathBuf,
    /// Holds the input of a run.
    input: PathBuf,
}

impl Runner {
    fn new() -> Self {
        let target = Path::new(env!("CARGO_MANIFEST_DIR")).join("../target");
        let named = std::env::var_os(VARIABLE).map(PathBuf::from);
        Self {
            program: named.unwrap_or_else(|| target.join("bin/press")),
            input: target.join("compare/press.input"),
        }
    }

    /// What the program prints, in a process of its own: its input stands in a file, or comes through a pipe in pieces of so many bytes.
    fn run(&self, input: &[u8], pieces: Option<usize>) -> Result<String, String> {
        let told = |error: std::io::Error| error.to_string();
        let mut command = Command::new(&self.program);
        command.stdout(Stdio::piped()).stderr(Stdio::piped());
        let output = match pieces {
            None => {
                fs::write(&self.input, input).map_err(told)?;
                command.stdin(File::open(&self.input).map_err(told)?);
                command.output().map_err(told)?
            }
            Some(size) => {
                command.stdin(Stdio::piped());
                let mut child = command.spawn().map_err(told)?;
                let pipe = child.stdin.take();
                thread::scope(|scope| {
                    scope.spawn(move || {
                        let Some(mut pipe) = pipe else { return };
                        // The program may end before its input does.
                        for piece in input.chunks(size) {
                            if pipe.write_all(piece).is_err() {
                                return;
                            }
                        }
                    });
                    child.wait_with_output().map_err(told)
                })?
            }
        };
        if output.status.code().is_none() || !output.stderr.is_empty() {
            return Err(format!(
                "{}, {:?}",
                output.status,
                String::from_utf8_lossy(&output.stderr)
            ));
        }
        String::from_utf8(output.stdout).map_err(|error| error.to_string())
    }

    /// The bytes in hexadecimal digits, or the file where they are left.
    fn shown(&self, input: &[u8]) -> String {
        if input.len() <= SHOWN {
            let digits: String = input.iter().map(|byte| format!("{byte:02x}")).collect();
            return format!("{} bytes {digits}", input.len());
        }
        let mut file = self.input.clone();
        file.set_file_name(format!("press.difference-{}", input.len()));
        match fs::write(&file, input) {
            Ok(()) => format!("{} bytes in {}", input.len(), file.display()),
            Err(error) => error.to_string(),
        }
    }
}
