//! `corbel`: the graders' program. It reads, calls the library, writes and explains; the library decides.
mod chain;
mod check;
mod diagnose;
mod exact;
mod failure;
mod files;
mod filter;
mod help;
mod jobs;
mod mean;
mod mend;
mod numbers;
mod options;
mod picture;
mod plate;
mod progress;
mod spread;
mod step;
mod weights;
mod why;

use failure::{usage, Failure};
use options::Options;
use picture::{READS, WRITES};
use std::process::ExitCode;

/// A command: its name, what it is for, the parts of its help, its options and what it does.
struct Command {
    name: &'static str,
    says: &'static str,
    help: &'static [&'static str],
    options: &'static [&'static [&'static str]],
    run: fn(&Options) -> Result<(), Failure>,
}

const COMMANDS: &[Command] = &[
    Command {
        name: "blur",
        says: "blurs a picture",
        help: &[help::BLUR, help::KERNEL, help::PICTURES, help::SAVE, help::MANY],
        options: &[step::BLUR, &["whole"], filter::COMMON],
        run: filter::blur,
    },
    Command {
        name: "shift",
        says: "moves a picture",
        help: &[help::SHIFT, help::PICTURES, help::SAVE, help::MANY],
        options: &[step::SHIFT, filter::COMMON],
        run: |options| filter::step("shift", options),
    },
    Command {
        name: "shadow",
        says: "draws a picture over its drop shadow",
        help: &[help::SHADOW, help::KERNEL, help::PICTURES, help::SAVE, help::MANY],
        options: &[step::SHADOW, filter::COMMON],
        run: |options| filter::step("shadow", options),
    },
    Command {
        name: "chain",
        says: "runs a saved chain of these on a picture",
        help: &[help::CHAIN, help::PICTURES, help::SAVE, help::MANY],
        options: &[&["recipes="], filter::COMMON],
        run: filter::chain,
    },
    Command {
        name: "check",
        says: "says whether a picture is premultiplied",
        help: &[help::CHECK],
        options: &[READS, &["o="]],
        run: check::run,
    },
    Command {
        name: "mend",
        says: "lowers each colour above its alpha to that alpha, and lists what it changed",
        help: &[help::MEND, help::PICTURES],
        options: &[&["list="], READS, WRITES],
        run: mend::run,
    },
    Command {
        name: "unmend",
        says: "puts back what mend changed",
        help: &[help::UNMEND, help::PICTURES],
        options: &[&["list="], READS, WRITES],
        run: mend::undo,
    },
    Command {
        name: "mean",
        says: "the mean alpha of a box",
        help: &[help::MEAN, help::FROM],
        options: &[&["box="], READS, &["o="]],
        run: mean::run,
    },
    Command {
        name: "spread",
        says: "how far a blur spreads a pixel",
        help: &[help::SPREAD],
        options: &[&["weights=", "n=", "o="]],
        run: spread::run,
    },
    Command {
        name: "why",
        says: "which points made a pixel of a blur",
        help: &[help::WHY, help::KERNEL, help::FROM],
        options: &[&["at=", "weights=", "n=", "edge=", "map=", "o="], READS],
        run: why::run,
    },
    Command {
        name: "plate list",
        says: "lists the pictures of a plate",
        help: &[help::LIST],
        options: &[&["o="]],
        run: plate::list,
    },
    Command {
        name: "plate pack",
        says: "makes a plate of pictures",
        help: &[help::PACK, help::FROM],
        options: &[&["version=", "units=", "sheets=", "o="], READS],
        run: plate::pack,
    },
    Command {
        name: "plate get",
        says: "takes a picture out of a plate",
        help: &[help::GET, help::TO],
        options: &[&["index="], WRITES],
        run: plate::get,
    },
    Command {
        name: "plate job",
        says: "blurs every picture of a plate where it lies",
        help: &[help::JOB, help::MANY],
        options: &[&["o=", "jobs"]],
        run: plate::job,
    },
    Command {
        name: "report",
        says: "says of each picture of a plate what it is",
        help: &[help::REPORT],
        options: &[&["o="]],
        run: plate::report,
    },
];

fn main() -> ExitCode {
    let arguments: Result<Vec<String>, _> =
        std::env::args_os().skip(1).map(|argument| argument.into_string()).collect();
    let (name, end) = match arguments {
        Ok(arguments) => command(&arguments),
        Err(argument) => ("", usage(format!("the argument {} is no UTF-8", argument.to_string_lossy()))),
    };
    let Err(failure) = end else { return ExitCode::SUCCESS };
    let name = format!("corbel {name}");
    let name = name.trim_end();
    if !failure.is_silent() {
        progress::say(&format!("{name}: {failure}"));
    }
    if matches!(failure, Failure::Usage(_)) {
        progress::say(&format!("{name} --help says more"));
    }
    ExitCode::from(failure.status())
}

/// Finds the command, and runs it. Its name may be two words.
fn command(arguments: &[String]) -> (&'static str, Result<(), Failure>) {
    let is = |word: &str, at: usize| arguments.get(at).is_some_and(|argument| argument == word);
    for command in COMMANDS {
        let words: Vec<_> = command.name.split(' ').collect();
        if words.iter().enumerate().all(|(at, word)| is(word, at)) {
            return (command.name, ran(command, &arguments[words.len()..]));
        }
    }
    let text = || -> String { COMMANDS.iter().map(|known| format!("  {:12} {}\n", known.name, known.says)).collect() };
    let end = match arguments.first().map(String::as_str) {
        Some("--help" | "-help") => files::write(None, (help::ALL.to_string() + &text()).as_bytes()),
        Some("--version" | "-version") => {
            files::write(None, concat!("corbel ", env!("CARGO_PKG_VERSION"), "\n").as_bytes())
        }
        Some("plate") => usage("after plate comes list, pack, get or job"),
        Some(other) => usage(format!("there is no command '{other}'")),
        None => usage("a command is missing"),
    };
    ("", end)
}

/// Its help, or what it does.
fn ran(command: &Command, arguments: &[String]) -> Result<(), Failure> {
    if arguments.iter().any(|argument| argument == "--help" || argument == "-help") {
        return files::write(None, (command.help.concat() + help::COMMON).as_bytes());
    }
    let options = Options::read(arguments, command.options)?;
    let _progress = progress::start(command.name);
    (command.run)(&options)
}
