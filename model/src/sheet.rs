//! Programs `sheet` and `credits`: a bank, and lines that each bring one event.

use std::io::Write;

use crate::controller::{event, make};
use crate::record::RECORD_BYTES;
use crate::types::{Answer, Command, Config, Event, Reading, Refusal, State};

/// "a line of any other form prints 99 and the seven unchanged"
const OTHER_FORM: u8 = 99;

/// What the program `sheet` prints for a bank and its input.
pub fn sheet(bank: &[u8], input: &[u8]) -> Vec<u8> {
    let mut out = Vec::new();
    let ran = run_lines(bank, input, |number, state, set_value| {
        print_line(&mut out, number, state, set_value);
    });
    if let Err(refusal) = ran {
        print_refusal(&mut out, refusal);
    }
    out
}

/// What the program `credits` prints for a bank and its input: nothing for a
/// line, and after the last the credits of the state that it left.
pub fn credits(bank: &[u8], input: &[u8]) -> Vec<u8> {
    let mut out = Vec::new();
    match run_lines(bank, input, |_, _, _| {}) {
        Ok(state) => print_credits(&mut out, &state),
        Err(refusal) => print_refusal(&mut out, refusal),
    }
    out
}

/// Runs the lines, and gives the state that the last one left, making's if
/// there is none. After each line `show` gets its number, the state and the set
/// value. Over a refused bank no line is run. The alarms are all of kind 0.
fn run_lines(
    bank: &[u8],
    input: &[u8],
    mut show: impl FnMut(u8, &State, i16),
) -> Result<State, Refusal> {
    let mut record = [0; RECORD_BYTES];
    let config = Config::default();
    let (mut state, made) = make(bank, &config, &mut record)?;
    let mut set_value = 0;
    take_set_value(made, &mut set_value);
    for line in lines(input) {
        let number = match read_line(line) {
            Some(read) => {
                let answer = event(bank, &config, &mut record, &mut state, read);
                take_set_value(answer, &mut set_value)
            }
            None => OTHER_FORM,
        };
        show(number, &state, set_value);
    }
    Ok(state)
}

/// The number that an answer prints; a refusal leaves the set value.
fn take_set_value(answer: Answer, place: &mut i16) -> u8 {
    match answer {
        Answer::Accepted { set_value, .. } => {
            *place = set_value;
            0
        }
        Answer::Refused(refusal) => refusal.number,
    }
}

/// Lines end with a line feed, which the last may lack.
fn lines(input: &[u8]) -> impl Iterator<Item = &[u8]> {
    let input = input
        .strip_suffix(b"\n")
        .or((!input.is_empty()).then_some(input));
    input
        .into_iter()
        .flat_map(|input| input.split(|&byte| byte == b'\n'))
}

/// "S start, P pause, X reset, F feed, B back, +, -, N q, T v, C cut, R v"
fn read_line(line: &[u8]) -> Option<Event> {
    let command = match line {
        b"S" => Command::Start,
        b"P" => Command::Pause,
        b"X" => Command::Reset,
        b"F" => Command::Feed,
        b"B" => Command::Back,
        b"+" => Command::Plus,
        b"-" => Command::Minus,
        [b'N', b' ', q @ ..] => Command::Select(read_number(q)?),
        b"C" => return Some(Event::Cut),
        [b'T', b' ', v @ ..] => return read_reading(v).map(Event::Tick),
        [b'R', b' ', v @ ..] => return read_reading(v).map(Event::Return),
        _ => return None,
    };
    Some(Event::Command(command))
}

/// "v is H (over), L (under) or a number"
fn read_reading(text: &[u8]) -> Option<Reading> {
    match text {
        b"H" => Some(Reading::Over),
        b"L" => Some(Reading::Under),
        _ => read_number(text).map(Reading::Value),
    }
}

/// "a number, q too, is an optional minus and one to five digits"
fn read_number(text: &[u8]) -> Option<i32> {
    let (sign, digits) = match text {
        [b'-', digits @ ..] => (-1, digits),
        digits => (1, digits),
    };
    if !(1..=5).contains(&digits.len()) || !digits.iter().all(u8::is_ascii_digit) {
        return None;
    }
    let size = digits
        .iter()
        .fold(0, |size, digit| 10 * size + i32::from(digit - b'0'));
    Some(sign * size)
}

/// "Each prints answer (0 accepted), mode, p, k, r, e, w, set value".
fn print_line(out: &mut Vec<u8>, number: u8, state: &State, set_value: i16) {
    let State {
        mode,
        p,
        k,
        r,
        e,
        w,
        ..
    } = state;
    // Writing to a vector does not fail.
    let _ = writeln!(out, "{number} {mode} {p} {k} {r} {e} {w} {set_value}");
}

/// A line for each step whose credit is not 0: its number, and the seconds.
fn print_credits(out: &mut Vec<u8>, state: &State) {
    for (k, credit) in (1..).zip(state.credits) {
        if credit != 0 {
            let _ = writeln!(out, "{k} {credit}");
        }
    }
}

/// "A refused bank prints its refusal's numbers and nothing more."
fn print_refusal(out: &mut Vec<u8>, refusal: Refusal) {
    let Refusal {
        number,
        first,
        second,
    } = refusal;
    let _ = match number {
        14 => writeln!(out, "{number} {first} {second}"),
        12 | 13 => writeln!(out, "{number} {first}"),
        _ => writeln!(out, "{number}"),
    };
}
