//! The library of this build and that of another build's `bench`, round by
//! round: a machine whose speed varies from minute to minute varies for both.

use std::io::{self, BufRead, BufReader, Write};
use std::process::{Child, ChildStdin, ChildStdout, Command, Stdio};
use std::time::Duration;

use crate::timing::{median_and_least, timed};

/// Rounds of each row.
const ROUNDS: usize = 201;
/// What asks the other build for a round, and for its next row.
const ROUND: &str = "round";
const NEXT: &str = "next";
/// The option under which a `bench` answers these.
pub const ANSWERING: &str = "--answering";

/// The `bench` of another build, which runs a round when it is asked to.
pub struct Other {
    child: Child,
    questions: ChildStdin,
    answers: BufReader<ChildStdout>,
}

impl Other {
    pub fn start(program: &str) -> Result<Other, String> {
        let failed = |error: io::Error| format!("{program} does not run: {error}");
        let mut command = Command::new(program);
        command.arg(ANSWERING);
        command.stdin(Stdio::piped()).stdout(Stdio::piped());
        let mut child = command.spawn().map_err(failed)?;
        let (questions, answers) = (child.stdin.take(), child.stdout.take());
        Ok(Other {
            child,
            questions: questions.ok_or("no way to ask it")?,
            answers: BufReader::new(answers.ok_or("no way to hear it")?),
        })
    }

    fn ask(&mut self, question: &str) -> Result<(), String> {
        writeln!(self.questions, "{question}").map_err(|error| format!("the other: {error}"))
    }

    fn answer(&mut self) -> Result<String, String> {
        let mut line = String::new();
        match self.answers.read_line(&mut line) {
            Ok(1..) => Ok(line.trim_end().to_string()),
            Ok(0) => Err("the other has ended".to_string()),
            Err(error) => Err(format!("the other: {error}")),
        }
    }

    fn round(&mut self) -> Result<Duration, String> {
        self.ask(ROUND)?;
        let line = self.answer()?;
        let time = line.parse().map_err(|_| format!("{line} is no time"))?;
        Ok(Duration::from_nanos(time))
    }
}

impl Drop for Other {
    fn drop(&mut self) {
        let _ = self.child.kill();
        let _ = self.child.wait();
    }
}

/// The rounds of a row by turns, each side as often first as second.
pub fn compare(
    other: &mut Other,
    name: &str,
    events: usize,
    library: &mut dyn FnMut() -> u64,
) -> Result<(), String> {
    let theirs = other.answer()?;
    if theirs != name {
        return Err(format!("the other's row is {theirs}, not {name}"));
    }
    let (mut here, mut there) = (Vec::new(), Vec::new());
    for round in 0..ROUNDS {
        if round % 2 == 0 {
            there.push(other.round()?);
        }
        here.push(timed(library).0);
        if round % 2 == 1 {
            there.push(other.round()?);
        }
    }
    other.ask(NEXT)?;
    let ratio = median_ratio(&here, &there);
    let (here, here_least) = median_and_least(here, events);
    let (there, there_least) = median_and_least(there, events);
    let (medians, least) = (here / there, here_least / there_least);
    println!("{name:<42}{here:>11.1}{there:>11.1}{medians:>9.3}{ratio:>9.3}{least:>9.3}");
    Ok(())
}

/// The median of the ratios of each round's two times.
fn median_ratio(here: &[Duration], there: &[Duration]) -> f64 {
    let pairs = here.iter().zip(there);
    let mut ratios: Vec<f64> = pairs
        .map(|(here, there)| here.as_secs_f64() / there.as_secs_f64())
        .collect();
    ratios.sort_by(f64::total_cmp);
    ratios[ratios.len() / 2]
}

/// The heading of what `compare` prints: both medians and their ratio, the
/// median of the rounds' ratios, and the ratio of the least times.
pub fn heading() {
    println!(
        "{:<42}{:>11}{:>11}{:>9}{:>9}{:>9}",
        "ns for one", "this", "other", "medians", "rounds", "least"
    );
}

/// The other side of `compare`: says the row, then runs a round at each question.
pub fn answer(name: &str, library: &mut dyn FnMut() -> u64) -> Result<(), String> {
    println!("{name}");
    for line in io::stdin().lines() {
        match line.map_err(|error| error.to_string())?.as_str() {
            ROUND => println!("{}", timed(library).0.as_nanos()),
            NEXT => return Ok(()),
            line => return Err(format!("{line} is no question")),
        }
    }
    Err("no more questions".to_string())
}
