//! The programs `sheet` and `credits` beside the model's, on generated inputs.

use std::fs::{self, File};
use std::io;
use std::path::{Path, PathBuf};
use std::process::{Command, Stdio};

use crate::alarms::CONFIG;
use crate::banks::{self, Draft};
use crate::calls::Comparer;
use crate::damage;
use crate::events::{self, Raw};
use crate::oracle::{self, RECORD, STATE};
use crate::random::Random;
use crate::report::{Compared, Difference};

const LONG: usize = 100_000;
/// The programs' settings beside the bank: four alarms of kind 0.
const NO_ALARMS: [u8; CONFIG] = [0; CONFIG];

/// What a program prints for a bank and its input.
type Prints = fn(&[u8], &[u8]) -> Vec<u8>;

/// A program, run in a directory of its own, and what the model says that it prints.
pub struct Program {
    name: &'static str,
    model: Prints,
    path: PathBuf,
    directory: PathBuf,
}

impl Program {
    fn new(name: &'static str, model: Prints, path: &Path) -> io::Result<Program> {
        let directory = std::env::temp_dir().join(format!("cook-{name}-{}", std::process::id()));
        fs::create_dir_all(&directory)?;
        Ok(Program {
            name,
            model,
            path: path.canonicalize()?,
            directory,
        })
    }

    pub fn sheet(path: &Path) -> io::Result<Program> {
        Program::new("sheet", model::sheet, path)
    }

    pub fn credits(path: &Path) -> io::Result<Program> {
        Program::new("credits", model::credits, path)
    }

    fn output(&self, bank: &[u8], input: &[u8]) -> io::Result<Vec<u8>> {
        let lines = self.directory.join("input");
        fs::write(self.directory.join("bank.bin"), bank)?;
        fs::write(&lines, input)?;
        let output = Command::new(&self.path)
            .current_dir(&self.directory)
            .stdin(File::open(lines)?)
            .stderr(Stdio::inherit())
            .output()?;
        match output.status.code() {
            Some(_) => Ok(output.stdout),
            None => Err(io::Error::other(format!("ended by {}", output.status))),
        }
    }

    fn compare(&self, comparer: &mut Comparer, bank: &[u8], input: &[u8]) -> Compared {
        let failed = |error: io::Error| {
            let report = Difference::new("a program does not run").line("program", self.name);
            let report = report.line("error", error);
            report.bytes("bank", bank).bytes("input", input)
        };
        let program = self.output(bank, input).map_err(failed)?;
        let model = (self.model)(bank, input);
        comparer.tally.inputs += 1;
        comparer.tally.printed += model.iter().filter(|&&byte| byte == b'\n').count() as u64;
        if program == model {
            return Ok(());
        }
        Err(difference(self.name, bank, input, &program, &model))
    }
}

impl Drop for Program {
    fn drop(&mut self) {
        let _ = fs::remove_dir_all(&self.directory);
    }
}

fn line_of(text: &[u8], number: usize) -> String {
    let line = text
        .split(|&byte| byte == b'\n')
        .nth(number)
        .unwrap_or_default();
    String::from_utf8_lossy(&line[..line.len().min(200)])
        .escape_debug()
        .to_string()
}

fn difference(name: &str, bank: &[u8], input: &[u8], program: &[u8], model: &[u8]) -> Difference {
    let place = program.iter().zip(model).position(|(a, b)| a != b);
    let place = place.unwrap_or(program.len().min(model.len()));
    let number = model[..place].iter().filter(|&&byte| byte == b'\n').count();
    Difference::new("what a program prints")
        .line("program", name)
        .bytes("bank", bank)
        .bytes("input", input)
        .line("first other line, from 0", number)
        .line("that line of the input", line_of(input, number))
        .line("printed by the program", line_of(program, number))
        .line("printed by the model", line_of(model, number))
        .line(
            "bytes printed, program and model",
            format_args!("{} {}", program.len(), model.len()),
        )
}

fn number(random: &mut Random, value: i32) -> String {
    let sign = if value < 0 || value == 0 && random.once_in(4) {
        "-"
    } else {
        ""
    };
    let digits = value.unsigned_abs().to_string();
    let zeros = if random.once_in(6) {
        random.below(5)
    } else {
        0
    };
    format!(
        "{sign}{}{digits}",
        "0".repeat(zeros.min(5usize.saturating_sub(digits.len())))
    )
}

/// The line of an event.
fn line(random: &mut Random, (kind, value): Raw) -> Vec<u8> {
    const KEYS: [&str; 8] = ["S", "P", "X", "F", "B", "+", "-", "C"];
    let text = match kind {
        0 => format!("T {}", number(random, value)),
        1 => "T H".to_string(),
        2 => "T L".to_string(),
        3 => format!("N {}", number(random, value)),
        12 => format!("R {}", number(random, value)),
        13 => "R H".to_string(),
        14 => "R L".to_string(),
        key => KEYS[key as usize - 4].to_string(),
    };
    text.into_bytes()
}

const WRONG: [&[u8]; 44] = [
    b"",
    b" ",
    b"s",
    b"S ",
    b" S",
    b"SS",
    b"S\r",
    b"\r",
    b"T",
    b"T ",
    b"T  5",
    b"T +5",
    b"T 5 ",
    b"T 123456",
    b"T 000001",
    b"T -123456",
    b"T -",
    b"T --5",
    b"T 1-",
    b"T 5-5",
    b"t 5",
    b"T h",
    b"T l",
    b"T HH",
    b"T H ",
    b"T -H",
    b"T\t5",
    b"T 1.5",
    b"T 0x5",
    b"T5",
    b"T 200\r",
    b"N",
    b"N ",
    b"N H",
    b"N +1",
    b"N 1 1",
    b"R",
    b"R  H",
    b"RH",
    b"C 1",
    b"+1",
    b"--",
    b"\0",
    b"\xff\xfe\x80",
];

/// A line of a hundred thousand bytes.
fn long_line(random: &mut Random) -> Vec<u8> {
    let start: &[u8] = random.pick(&[&b"T "[..], b"S", b"T 5", b"", b"N 1", b"R -"]);
    let fill = random.pick(b"0 1S\0\xff");
    let mut line = start.to_vec();
    line.resize(LONG, fill);
    line
}

/// A line of a wrong form, or one that is nearly right.
fn wrong_line(random: &mut Random, right: Vec<u8>) -> Vec<u8> {
    let mut line = right;
    match random.below(12) {
        0..=5 => return random.pick(&WRONG).to_vec(),
        6 => line.insert(random.below(line.len() + 1), random.byte()),
        7 => line.insert(random.below(line.len() + 1), random.pick(b" 09-+HL\r\0\n")),
        8 => drop(line.remove(random.below(line.len()))),
        9 => {
            let place = random.below(line.len());
            line[place] = random.byte();
        }
        10 => {
            let length = random.below(40);
            line = random.bytes(length);
        }
        _ if random.once_in(40) => line = long_line(random),
        _ => line.extend_from_slice(random.pick(&[&b" "[..], b"\r", b"0", b"5", b" 5", b"\0"])),
    }
    line
}

/// Lines that move a program on, with wrong ones between them.
fn lines(random: &mut Random, draft: &Draft, count: usize) -> Vec<u8> {
    let (mut record, mut state) = ([0; RECORD], [0; STATE]);
    let bank = draft.bank();
    oracle::make(&bank, &NO_ALARMS, &mut record, &mut state);
    let (mut input, mut written) = (Vec::new(), 0);
    while written < count {
        for (kind, value) in events::burst(random, draft, &state) {
            let right = line(random, (kind, value));
            if random.once_in(20) {
                input.extend(wrong_line(random, right.clone()));
                input.push(b'\n');
            }
            input.extend(right);
            input.push(b'\n');
            written += 1;
            oracle::event(&bank, &NO_ALARMS, &mut record, &mut state, kind, value);
        }
    }
    input
}

/// The end of an input: with and without a newline, or with a half line.
fn end(random: &mut Random, input: &mut Vec<u8>) {
    match random.below(6) {
        0 => drop(input.pop()),
        1 => input.extend_from_slice(random.pick(&[&b"T"[..], b"T 20", b"S", b"\r", b" ", b"\0"])),
        2 => input.extend_from_slice(random.pick(&[&b"\n"[..], b"\n\n", b"T 200\r\n"])),
        _ => (),
    }
}

fn any_bank(random: &mut Random, draft: &Draft) -> Vec<u8> {
    let mut bank = draft.bank();
    match random.below(12) {
        0 => damage::bank(random),
        1 => {
            let length = random.below(3_001);
            random.bytes(length)
        }
        2 => {
            let length = random.pick(&[45, 46, 1_010, 1_011, 1_012, 1_024, 3_000, LONG]);
            bank.resize(length, 0);
            bank
        }
        _ => bank,
    }
}

/// Inputs that are always compared, over a bank.
fn fixed_inputs(program: &Program, comparer: &mut Comparer, bank: &[u8]) -> Compared {
    let wrong = WRONG.join(&b'\n');
    let inputs: [&[u8]; 8] = [
        b"",
        b"\n",
        b"\n\n\n",
        b"S",
        b"S\n",
        b"S\nT 200\nC\nR 200\nT 200\n",
        b"\r\n",
        &wrong,
    ];
    inputs
        .iter()
        .try_for_each(|input| program.compare(comparer, bank, input))
}

/// Every length of bank up to 3,000 in strides, valid at its own length alone.
pub fn lengths(program: &Program, comparer: &mut Comparer, random: &mut Random) -> Compared {
    let whole = banks::full(random, 14).bank();
    fixed_inputs(program, comparer, &whole)?;
    for length in (0..60)
        .chain((60..3_000).step_by(61))
        .chain(1_008..1_015)
        .chain([LONG])
    {
        let mut bank = whole.clone();
        bank.resize(length, 0);
        program.compare(comparer, &bank, b"S\nT 20\n")?;
    }
    Ok(())
}

/// Random inputs over random banks.
pub fn compare(
    program: &Program,
    comparer: &mut Comparer,
    random: &mut Random,
    count: usize,
) -> Compared {
    for _ in 0..count {
        let draft = banks::lively(random);
        let bank = any_bank(random, &draft);
        let length = random.pick(&[1, 10, 100, 100, 600, 4_000]);
        let length = if random.once_in(100) { 50_000 } else { length };
        let mut input = lines(random, &draft, length);
        end(random, &mut input);
        program.compare(comparer, &bank, &input)?;
    }
    Ok(())
}
