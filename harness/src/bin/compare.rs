//! Compares the static library, or the program `sheet` or `credits`, with the
//! outside model.
//!
//! compare [--seed N] [--seconds N] [--sheet PROGRAM | --credits PROGRAM]
//!
//! Without --seconds a fixed amount of work from a fixed seed; with it, random
//! work until the time is up, from the given seed or a new one that it prints.

use std::io;
use std::path::Path;
use std::process::ExitCode;
use std::thread;
use std::time::{Duration, Instant, SystemTime, UNIX_EPOCH};

use harness::calls::Comparer;
use harness::programs::{self, Program};
use harness::random::Random;
use harness::report::Compared;
use harness::{cook_cuts, hostile, lists, states, walk, writer};

/// Seed of the fixed amount of work.
const SEED: u64 = 20_260_101;
/// Rounds of random work in the fixed amount.
const ROUNDS: usize = 200;
/// Work of one round.
const HOSTILE_BANKS: usize = 12_000;
const VALID_BANKS: usize = 300;
const DRAFTS: usize = 450;
const STATE_BANKS: usize = 1_200;
const LISTS: usize = 120;
const TREE_DEPTH: usize = 4;
/// Banks of every n that are damaged at every field.
const DAMAGED: usize = 20;
/// Longest list of the walk over every list.
const WALK_DEPTH: usize = 6;
/// Inputs of a program in the fixed amount, and in one round of random work.
const INPUTS: usize = 800;
const INPUTS_A_ROUND: usize = 20;

struct Options {
    seed: Option<u64>,
    seconds: Option<u64>,
    program: Option<Program>,
}

/// A program that is there.
fn started(program: fn(&Path) -> io::Result<Program>, path: &str) -> Result<Program, String> {
    program(Path::new(path)).map_err(|error| format!("{path} does not run: {error}"))
}

fn options() -> Result<Options, String> {
    let mut options = Options {
        seed: None,
        seconds: None,
        program: None,
    };
    let mut arguments = std::env::args().skip(1);
    while let Some(name) = arguments.next() {
        let value = arguments
            .next()
            .ok_or_else(|| format!("{name} needs a value"))?;
        let number = || {
            value
                .parse()
                .map_err(|_| format!("{name} {value} is no number"))
        };
        match name.as_str() {
            "--seed" => options.seed = Some(number()?),
            "--seconds" => options.seconds = Some(number()?),
            "--sheet" => options.program = Some(started(Program::sheet, &value)?),
            "--credits" => options.program = Some(started(Program::credits, &value)?),
            _ => return Err(format!("{name} is not known")),
        }
    }
    Ok(options)
}

/// A seed that is new with every run.
fn new_seed() -> u64 {
    let now = SystemTime::now()
        .duration_since(UNIX_EPOCH)
        .unwrap_or_default();
    now.as_nanos() as u64 >> 10
}

/// A part of the random work.
type Part = (&'static str, fn(&mut Comparer, &mut Random) -> Compared);

/// The parts of the random work, each with the work of one round; the lists take about as long as all the others.
const LISTS_PART: Part = ("random lists", |c, r| lists::compare(c, r, LISTS));
const OTHER_PARTS: [Part; 5] = [
    ("random hostile banks", |c, r| {
        hostile::random_banks(c, r, HOSTILE_BANKS)
    }),
    ("random valid banks", |c, r| {
        hostile::valid_banks(c, r, VALID_BANKS)
    }),
    ("random drafts for the writer", |c, r| {
        writer::compare(c, r, DRAFTS)
    }),
    ("random states and records", |c, r| {
        states::compare(c, r, STATE_BANKS)
    }),
    ("random trees of lists", |c, r| {
        walk::random_tree(c, r, TREE_DEPTH)
    }),
];

/// One round of random work on every call.
fn round(comparer: &mut Comparer, random: &mut Random) -> Compared {
    (LISTS_PART.1)(comparer, random)?;
    OTHER_PARTS
        .iter()
        .try_for_each(|(_, part)| part(comparer, random))
}

fn said<T>(what: &str, from: Instant, work: impl FnOnce() -> T) -> T {
    let began = Instant::now();
    let result = work();
    let (took, all) = (began.elapsed().as_secs_f64(), from.elapsed().as_secs_f64());
    println!("{what:<34}{took:>10.1} s, {all:.1} s in all");
    result
}

/// All rounds of a part.
fn rounds(
    (name, part): Part,
    from: Instant,
    comparer: &mut Comparer,
    random: &mut Random,
) -> Compared {
    said(name, from, || {
        (0..ROUNDS).try_for_each(|_| part(comparer, random))
    })
}

/// The long lists of the fixed work.
fn list_work(from: Instant, comparer: &mut Comparer, random: &mut Random) -> Compared {
    said("cuts in the fixed cook", from, || {
        cook_cuts::compare(comparer)
    })?;
    rounds(LISTS_PART, from, comparer, random)
}

/// All of the fixed work but the long lists.
fn other_work(from: Instant, comparer: &mut Comparer, random: &mut Random) -> Compared {
    said("every list of the tree walk", from, || {
        walk::every_list(comparer, WALK_DEPTH)
    })?;
    said("banks damaged at every field", from, || {
        (0..DAMAGED).try_for_each(|_| hostile::every_field(comparer, random))
    })?;
    said("drafts damaged at every field", from, || {
        writer::every_field(comparer, random)
    })?;
    said("banks of every length", from, || {
        hostile::every_length(comparer, random)
    })?;
    said("lists to the last pass", from, || {
        lists::to_the_last_pass(comparer, random)
    })?;
    said("lists to the longest delay", from, || {
        lists::to_the_longest_delay(comparer, random)
    })?;
    OTHER_PARTS
        .into_iter()
        .try_for_each(|part| rounds(part, from, comparer, random))
}

/// The fixed work, the long lists beside the rest, from a generator of their own.
fn fixed_work(comparer: &mut Comparer, random: &mut Random) -> Compared {
    let from = Instant::now();
    let mut own = Random::new(random.bits());
    let mut beside = Comparer::default();
    let (others, listed) = thread::scope(|scope| {
        let listed = scope.spawn(|| list_work(from, &mut beside, &mut own));
        let others = other_work(from, comparer, random);
        (others, listed.join())
    });
    comparer.tally.add(beside.tally);
    others.and(listed.unwrap_or_else(|panic| std::panic::resume_unwind(panic)))
}

fn until(end: Instant, mut round: impl FnMut() -> Compared) -> Compared {
    while Instant::now() < end {
        round()?;
    }
    Ok(())
}

fn program_work(
    program: &Program,
    end: Option<Instant>,
    comparer: &mut Comparer,
    random: &mut Random,
) -> Compared {
    let Some(end) = end else {
        programs::lengths(program, comparer, random)?;
        return programs::compare(program, comparer, random, INPUTS);
    };
    until(end, || {
        programs::compare(program, comparer, random, INPUTS_A_ROUND)
    })
}

fn compare() -> Result<(), String> {
    let options = options().map_err(|message| {
        format!("{message}\nusage: compare [--seed N] [--seconds N] [--sheet PROGRAM | --credits PROGRAM]")
    })?;
    let timed = options
        .seconds
        .map(|seconds| Instant::now() + Duration::from_secs(seconds));
    let seed = options
        .seed
        .unwrap_or(if timed.is_some() { new_seed() } else { SEED });
    println!("seed {seed}");
    let (mut random, mut comparer) = (Random::new(seed), Comparer::default());
    let (random, comparer) = (&mut random, &mut comparer);
    let work = match (&options.program, timed) {
        (Some(program), end) => program_work(program, end, comparer, random),
        (None, None) => fixed_work(comparer, random),
        (None, Some(end)) => until(end, || round(comparer, random)),
    };
    print!("{}", comparer.tally);
    work.map_err(|difference| format!("{}\nseed: {seed}", difference.to_string().trim_end()))?;
    println!("no difference");
    Ok(())
}

fn main() -> ExitCode {
    match compare() {
        Ok(()) => ExitCode::SUCCESS,
        Err(message) => {
            eprintln!("{message}");
            ExitCode::FAILURE
        }
    }
}
