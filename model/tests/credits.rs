//! What the program `credits` prints.

mod common;

use common::*;
use model::{credits, credits_due, what_is_left, Command, Config, Event, Reading};

/// What the program prints for a bank.
fn printed_over(bank: &[u8], input: &str) -> String {
    String::from_utf8(credits(bank, input.as_bytes())).unwrap()
}

/// What the program prints for the bank of the sheet example.
fn printed(input: &str) -> String {
    printed_over(&example_bank(), input)
}

/// The same line again and again.
fn times(count: usize, line: &str) -> String {
    format!("{line}\n").repeat(count)
}

#[test]
fn credit_of_step_1_of_the_sheet_example_is_1() {
    assert_eq!(printed("S\nT 200\nC\nR 200\nT 200\n"), "1 1\n");
}

#[test]
fn a_refused_bank_prints_its_numbers() {
    let changed =
        |offset: usize, value: u8| printed_over(&example_with(offset, value), "S\nT 200\n");
    assert_eq!(printed_over(&[], "S\nT 200\n"), "11\n");
    assert_eq!(printed_over(&example_bank()[..44], ""), "11\n");
    assert_eq!(changed(2, 3), "12 2\n");
    assert_eq!(changed(45, 50), "13 1\n");
    assert_eq!(changed(49, 100), "14 1 0\n");
    assert_eq!(changed(64, 5), "14 1 2\n");
}

#[test]
fn no_credit_prints_nothing() {
    for input in [
        "",
        "\n",
        "S\n",
        "T 200\nT 200\n",
        "S\nP\nT 200\n",
        "S\nX\nT 200\n",
        "S\nF\nF\nT 200\n",
        "S\nT 30000\n",
    ] {
        assert_eq!(printed(input), "", "{input:?}");
    }
}

#[test]
fn power_off_at_the_end_prints_nothing() {
    for end in ["C\n", "C", "C\nT 200\n", "C\nS\n", "C\nR 30000\n", "C\n?\n"] {
        assert_eq!(printed(&format!("S\nT 200\nP\n{end}")), "", "{end:?}");
    }
}

#[test]
fn a_return_brings_back_the_credits_of_the_last_save() {
    assert_eq!(printed("S\nT 200\nP\nC\nR 200\n"), "1 1\n");
    assert_eq!(printed("S\nT 200\nC\nR 200\n"), "");
    let input = format!("S\n{}C\nR 200\n", times(61, "T 200"));
    assert_eq!(printed(&input), "1 60\n");
}

#[test]
fn each_step_has_its_own_line_in_order() {
    let after = |ticks| printed(&format!("S\n{}", times(ticks, "T 200")));
    assert_eq!(after(120), "1 120\n");
    assert_eq!(after(121), "1 120\n2 1\n");
    assert_eq!(after(200), "1 120\n2 60\n");
    assert_eq!(printed("S\nF\nT 200\n"), "2 1\n");
    assert_eq!(printed("S\nF\nT 200\nT 200\nB\nT 200\n"), "1 1\n2 2\n");
}

#[test]
fn passes_add_to_the_same_credit() {
    let bank = bank(&settings(1), &[(3, &[step(600, 0), step(600, 0)])]);
    let input = format!("S\n{}", times(5, "T 200"));
    assert_eq!(printed_over(&bank, &input), "1 3\n2 2\n");
}

#[test]
fn a_step_number_may_have_two_digits() {
    let bank = bank(&settings(1), &[(1, &[step(600, 0); 99])]);
    let after = |feeds, ticks| {
        let input = format!("S\n{}{}", times(feeds, "F"), times(ticks, "T 200"));
        printed_over(&bank, &input)
    };
    assert_eq!(after(8, 3), "9 1\n10 1\n11 1\n");
    assert_eq!(after(98, 1), "99 1\n");
    let all: String = (1..=99).map(|k| format!("{k} 1\n")).collect();
    assert_eq!(after(0, 99), all);
}

#[test]
fn plus_and_minus_are_not_credited() {
    assert_eq!(printed("S\n+\n"), "");
    assert_eq!(printed("S\nT 200\n+\n"), "1 1\n");
    assert_eq!(printed("S\nT 200\n+\n-\nT 200\n"), "1 2\n");
}

#[test]
fn reset_and_select_keep_credits_and_start_clears_them() {
    assert_eq!(printed("S\nT 200\nX\n"), "1 1\n");
    assert_eq!(printed("S\nT 200\nX\nT 200\nN 1\n"), "1 1\n");
    assert_eq!(printed("S\nT 200\nX\nS\n"), "");
    assert_eq!(printed("S\nT 200\nT 200\nX\nS\nT 200\n"), "1 1\n");
}

#[test]
fn a_line_of_any_other_form_changes_nothing() {
    for other in OTHER_FORMS.split('|') {
        let input = format!("S\nT 200\n{other}\nT 200\n{other}\n");
        assert_eq!(printed(&input), "1 2\n", "{other:?}");
    }
}

#[test]
fn the_last_line_may_lack_its_newline() {
    assert_eq!(printed("S\nT 200"), "1 1\n");
    assert_eq!(printed("S\nT 200\nT 200"), "1 2\n");
    assert_eq!(printed("S\nT 200\nT"), "1 1\n");
}

fn reading_text(reading: Reading) -> String {
    match reading {
        Reading::Over => "H".into(),
        Reading::Under => "L".into(),
        Reading::Value(v) => v.to_string(),
    }
}

/// The line of an event. A reading of more than five digits makes a line of
/// another form, which changes as little as the refused event.
fn line(event: Event) -> String {
    let command = match event {
        Event::Tick(reading) => return format!("T {}\n", reading_text(reading)),
        Event::Return(reading) => return format!("R {}\n", reading_text(reading)),
        Event::Cut => return "C\n".into(),
        Event::Command(command) => command,
    };
    match command {
        Command::Select(q) => format!("N {q}\n"),
        Command::Start => "S\n".into(),
        Command::Pause => "P\n".into(),
        Command::Reset => "X\n".into(),
        Command::Feed => "F\n".into(),
        Command::Back => "B\n".into(),
        Command::Plus => "+\n".into(),
        Command::Minus => "-\n".into(),
    }
}

/// Alarms never change what is counted: the program, which has alarms of kind 0,
/// prints the credits of a controller with any.
#[test]
fn alarms_leave_the_credits_as_they_are() {
    let mut random = Random::new(14);
    let mut credited = 0;
    for _ in 0..300 {
        let mut controller = Controller::with(random.bank(), random.config());
        let events: Vec<Event> = (0..200).map(|_| random.event()).collect();
        events.iter().for_each(|&event| {
            controller.send(event);
        });
        let input: String = events.into_iter().map(line).collect();
        let expected: String = (1..)
            .zip(controller.state.credits)
            .filter(|&(_, credit)| credit > 0)
            .map(|(k, credit)| format!("{k} {credit}\n"))
            .collect();
        assert_eq!(printed_over(&controller.bank, &input), expected);
        credited += usize::from(!expected.is_empty());
    }
    assert!(credited > 100, "{credited}");
}

/// The lines of a list print the credits that are due for what is left of it.
#[test]
fn random_lists_print_the_credits_that_are_due() {
    let mut random = Random::new(10);
    let mut credited = 0;
    for _ in 0..1_500 {
        let bank = random.bank();
        let length = random.between(0, 400) as usize;
        let events: Vec<Event> = (0..length).map(|_| random.event()).collect();
        let config = Config::default();
        let (left, power) = what_is_left(&bank, &config, &events);
        let expected: String = (1..)
            .zip(credits_due(&bank, &config, &left))
            .filter(|&(_, due)| power && due > 0)
            .map(|(k, due)| format!("{k} {due}\n"))
            .collect();
        let input: String = events.into_iter().map(line).collect();
        assert_eq!(printed_over(&bank, &input), expected);
        credited += usize::from(!expected.is_empty());
    }
    assert!(credited > 500, "{credited}");
}
