//! The commands of the oracle.

use std::fs::File;
use std::io::{self, BufReader, BufWriter, Read, Write};
use std::process::ExitCode;

use oracle::agree::{Agreement, agree};
use oracle::ballots::other_ballots;
use oracle::baseline::{self, BUFFER};
use oracle::digest::Digest;
use oracle::first_value::{Departures, departs, without_first_values};
use oracle::generate::{self, Profile};
use oracle::merges::{merges_of, tell_merges};
use oracle::model::agree::model_agree;
use oracle::play::play;
use oracle::rule::OLD_RULE;
use oracle::stats::Stats;
use oracle::tell::Text;

const USAGE: &str = "usage:
  oracle replay    a trace on standard input; 01's line for each record
  oracle tell      the same, with the actions and the whole state of each record
  oracle digest    checksums of what `tell` prints, for each 64 records and for all
  oracle baseline  the lines of `replay`, by the plain program that times are compared with
  oracle agree TRACE
                   another program's told text of TRACE on standard input; the first record
                   that differs, or how many agree
  oracle model-agree
                   a trace on standard input, played in base kind by the Rust and by the model that
                   plays strict replicas; the first record that differs, or how many agree
  oracle departs TRACE
                   the same of a program that keeps the first value, with --old-rule: whether it
                   differs exactly at the records where a value meets nothing held
  oracle without-first-values
                   with --old-rule: the trace without such replies
  oracle other-ballots SEED
                   the trace with another ballot in every log completion, fixed by the seed
  oracle merges-of a trace of the merges of each read that the trace opened, one read after another
  oracle merges    a trace of that form; for each read opened and each reply, the answer and what
                   the Rust knows of the read after it
  oracle stats [TRACE..]
                   what the trace reaches, or what the named traces reach together
  oracle gen SEED COUNT --profile group|fuzz|reads|mix|writes [--strict]
                   writes a trace of COUNT records, fixed by the seed, of base or strict replicas
  oracle example worked|keys|refusals|late-N|first-value|strict-edges|two-batches-N|
                   strict-two-batches-N
                   writes a trace made by hand: 01's worked example, the key table's edge, both
                   sides of 01's refusals, reads in which a value meets nothing held, both sides of
                   the strict rules' edges, or what member N of three received: in a run that commits
                   one slot twice, and in 02's, of base members and of strict ones
The strict kind is played by a model of 02's rules, the base kind by the Rust.";

enum Command {
    Replay,
    Tell,
    Digest,
    Baseline,
    Agree { trace: String },
    ModelAgree,
    Departs { trace: String },
    WithoutFirstValues,
    OtherBallots { seed: u64 },
    MergesOf,
    Merges,
    Stats { traces: Vec<String> },
    Example { trace: Vec<u8> },
    Generate { seed: u64, count: u64, profile: Profile, strict: bool },
}

fn main() -> ExitCode {
    let words: Vec<String> =
        std::env::args_os().skip(1).map(|word| word.to_string_lossy().into_owned()).collect();
    let command = match parse(&words) {
        Ok(command) => command,
        Err(message) => {
            eprintln!("oracle: {message}\n{USAGE}");
            return ExitCode::from(2);
        }
    };
    if !cfg!(debug_assertions) && !matches!(command, Command::Baseline) {
        eprintln!("oracle: built without debug assertions, which answer 6 needs");
        return ExitCode::from(2);
    }
    match run(command) {
        Ok(code) => code,
        Err(error) => {
            eprintln!("oracle: {error}");
            let not_for_this = error.kind() == io::ErrorKind::Unsupported;
            ExitCode::from(if not_for_this { 2 } else { 1 })
        }
    }
}

fn parse(words: &[String]) -> Result<Command, String> {
    let words: Vec<&str> = words.iter().map(String::as_str).collect();
    match words.as_slice() {
        [] => Err("no command".to_string()),
        ["replay"] => Ok(Command::Replay),
        ["tell"] => Ok(Command::Tell),
        ["digest"] => Ok(Command::Digest),
        ["baseline"] => Ok(Command::Baseline),
        ["merges-of"] => Ok(Command::MergesOf),
        ["merges"] => Ok(Command::Merges),
        ["model-agree"] if OLD_RULE => {
            Err("the model goes by the new rule: without --old-rule".to_string())
        }
        ["model-agree"] => Ok(Command::ModelAgree),
        ["agree", trace] => Ok(Command::Agree { trace: trace.to_string() }),
        ["agree", ..] => Err("agree takes TRACE".to_string()),
        ["departs" | "without-first-values", ..] if !OLD_RULE => {
            Err("only the Rust as it is can be parted from: --old-rule".to_string())
        }
        ["departs", trace] => Ok(Command::Departs { trace: trace.to_string() }),
        ["departs", ..] => Err("departs takes TRACE".to_string()),
        ["without-first-values"] => Ok(Command::WithoutFirstValues),
        ["without-first-values", ..] => Err("without-first-values takes no arguments".to_string()),
        ["other-ballots", seed] => Ok(Command::OtherBallots { seed: number("SEED", seed)? }),
        ["other-ballots", ..] => Err("other-ballots takes SEED".to_string()),
        ["example", name] => Ok(Command::Example {
            trace: generate::example(name)
                .ok_or_else(|| format!("no example is called '{name}'"))?,
        }),
        ["example", ..] => Err("example takes a name".to_string()),
        ["stats", traces @ ..] => {
            Ok(Command::Stats { traces: traces.iter().map(|name| name.to_string()).collect() })
        }
        ["gen", seed, count, "--profile", profile, kind @ ..]
            if matches!(kind, [] | ["--strict"]) =>
        {
            Ok(Command::Generate {
                seed: number("SEED", seed)?,
                count: number("COUNT", count)?,
                profile: Profile::named(profile)
                    .ok_or_else(|| format!("no profile is called '{profile}'"))?,
                strict: !kind.is_empty(),
            })
        }
        ["gen", ..] => Err("gen takes SEED COUNT --profile NAME, and --strict or not".to_string()),
        [
            name @ ("replay" | "tell" | "digest" | "baseline" | "model-agree" | "merges"
            | "merges-of"),
            ..,
        ] => Err(format!("{name} takes no arguments")),
        [name, ..] => Err(format!("no command is called '{name}'")),
    }
}

fn number(what: &str, word: &str) -> Result<u64, String> {
    word.parse().map_err(|_| format!("{what} is a number below 2^64, not '{word}'"))
}

fn run(command: Command) -> io::Result<ExitCode> {
    let input = BufReader::with_capacity(BUFFER, io::stdin().lock());
    let mut output = BufWriter::with_capacity(BUFFER, io::stdout().lock());
    match command {
        // It has buffers of its own, and nothing was read yet.
        Command::Baseline => baseline::replay(input.into_inner(), output.get_mut())?,
        Command::Replay => print_each(input, &mut output, false)?,
        Command::Tell => print_each(input, &mut output, true)?,
        Command::MergesOf => merges_of(input, &mut output)?,
        Command::Merges => tell_merges(input, &mut output)?,
        Command::Digest => {
            let mut digest = Digest::default();
            play(input, |played| {
                digest.add(&played);
                Ok(())
            })?;
            output.write_all(digest.finish().as_bytes())?;
        }
        Command::Agree { trace } => return report(agree(open(&trace)?, input)?, output),
        Command::ModelAgree => return report(model_agree(input)?, output),
        Command::Departs { trace } => {
            let (said, code) = match departs(open(&trace)?, input)? {
                Ok(Departures { records, first_values, later }) => {
                    let exactly = format!("{first_values} where a value meets nothing held");
                    (format!("{records} records, parting at {exactly}, {later} later\n"), 0)
                }
                Err(wrong) => (wrong.report(), 1),
            };
            output.write_all(said.as_bytes())?;
            output.flush()?;
            return Ok(ExitCode::from(code));
        }
        Command::WithoutFirstValues => without_first_values(input, &mut output)?,
        Command::OtherBallots { seed } => other_ballots(seed, input, &mut output)?,
        Command::Stats { traces } => {
            let mut stats = Stats::default();
            for trace in &traces {
                stats.read(open(trace)?).map_err(|error| named(trace, error))?;
            }
            if traces.is_empty() {
                stats.read(input)?;
            }
            output.write_all(stats.report().as_bytes())?;
        }
        Command::Example { trace } => output.write_all(&trace)?,
        Command::Generate { seed, count, profile, strict } => {
            let write = |bytes: &[u8]| output.write_all(bytes);
            generate::generate_kind(seed, count, profile, strict, write)?;
        }
    }
    output.flush()?;
    Ok(ExitCode::SUCCESS)
}

fn report(agreement: Agreement, mut output: impl Write) -> io::Result<ExitCode> {
    let (said, code) = match agreement {
        Agreement::Whole(records) => (format!("{records} records agree\n"), 0),
        Agreement::Differs(difference) => (difference.report(), 1),
    };
    output.write_all(said.as_bytes())?;
    output.flush()?;
    Ok(ExitCode::from(code))
}

fn open(trace: &str) -> io::Result<BufReader<File>> {
    let file = File::open(trace).map_err(|error| named(trace, error))?;
    Ok(BufReader::with_capacity(BUFFER, file))
}

fn named(trace: &str, error: io::Error) -> io::Error {
    io::Error::new(error.kind(), format!("{trace}: {error}"))
}

fn print_each(input: impl Read, output: &mut impl Write, whole: bool) -> io::Result<()> {
    let mut text = Text::default();
    play(input, |played| {
        text.bytes.clear();
        if whole {
            text.told(played.number, played.outcome, played.replica);
        } else {
            text.replay_line(played.number, played.outcome, played.replica);
        }
        output.write_all(&text.bytes)
    })
}
