//! What the tests share: banks, settings, states and a small random generator.

#![allow(dead_code)]

use model::{
    make, read_back, write, Alarm, AlarmSetting, Answer, Command, Config, Contents, Event,
    Measured, Reading, Refusal, Settings, State, Step,
};

/// The settings of the sheet example, for n patterns.
pub fn settings(n: u8) -> Settings {
    Settings {
        n,
        start: 1,
        outage: 2,
        slh: 1_000,
        start_value: 200,
        ..Settings::default()
    }
}

pub fn step(target: i16, minutes: u16) -> Step {
    Step {
        target,
        minutes,
        ..Step::default()
    }
}

/// Runs and s of each pattern, and the steps of all in one row.
pub fn layout(patterns: &[(u8, &[Step])]) -> ([(u8, u8); 15], [Step; 99]) {
    let mut heads = [(0, 0); 15];
    let mut steps = [Step::default(); 99];
    let mut at = 0;
    for (head, (runs, own)) in heads.iter_mut().zip(patterns) {
        *head = (*runs, own.len() as u8);
        steps[at..at + own.len()].copy_from_slice(own);
        at += own.len();
    }
    (heads, steps)
}

pub fn try_bank(settings: &Settings, patterns: &[(u8, &[Step])]) -> Result<Vec<u8>, Refusal> {
    let (heads, steps) = layout(patterns);
    let mut out = vec![0; 1_011];
    let length = write(settings, &heads, &steps, &mut out)?;
    out.truncate(length);
    Ok(out)
}

pub fn bank(settings: &Settings, patterns: &[(u8, &[Step])]) -> Vec<u8> {
    try_bank(settings, patterns).expect("the writer accepts the bank")
}

/// The bank of the sheet example.
pub fn example_bank() -> Vec<u8> {
    bank(&settings(1), &[(1, &[step(600, 2), step(600, 1)])])
}

/// The bank of the sheet example with one byte changed.
pub fn example_with(offset: usize, value: u8) -> Vec<u8> {
    let mut bank = example_bank();
    bank[offset] = value;
    bank
}

/// Lines of any other form than those that bring an event.
pub const OTHER_FORMS: &str = "| S|S |s|SS|N|N |N1|N  1|N H|T -|T +1|T 123456|T h|T H |R|C 1|S\r";

pub const START: Event = Event::Command(Command::Start);

pub fn tick(v: i32) -> Event {
    Event::Tick(Reading::Value(v))
}

pub fn back_with(v: i32) -> Event {
    Event::Return(Reading::Value(v))
}

pub fn refused(number: u8) -> Answer {
    Answer::Refused(Refusal {
        number,
        first: 0,
        second: 0,
    })
}

pub fn with_values(number: u8, first: u16, second: u8) -> Refusal {
    Refusal {
        number,
        first,
        second,
    }
}

pub fn is_accepted(answer: Answer) -> bool {
    matches!(answer, Answer::Accepted { .. })
}

pub fn set_value(answer: Answer) -> i16 {
    match answer {
        Answer::Accepted { set_value, .. } => set_value,
        Answer::Refused(refusal) => panic!("refused: {refusal:?}"),
    }
}

/// The flags of an alarm's settings.
pub const HOLD: u8 = 1;
pub const STANDBY: u8 = 2;

/// A setting out of range.
pub const WRONG: AlarmSetting = AlarmSetting {
    kind: 9,
    ..alarm(0, 0, 0)
};

/// An alarm without sensitivity, delay and flags.
pub const fn alarm(kind: u8, high: i16, low: i16) -> AlarmSetting {
    AlarmSetting {
        kind,
        high,
        low,
        sensitivity: 0,
        delay: 0,
        flags: 0,
    }
}

/// Settings whose alarm 1 is the given one, and the others of kind 0.
pub fn config(alarm: AlarmSetting) -> Config {
    let mut config = Config::default();
    config.alarms[0] = alarm;
    config
}

/// A controller with its retained memory.
pub struct Controller {
    pub bank: Vec<u8>,
    pub config: Config,
    pub record: [u8; 423],
    pub state: State,
    pub answer: Answer,
}

impl Controller {
    pub fn new(bank: Vec<u8>) -> Self {
        Self::with(bank, Config::default())
    }

    pub fn with(bank: Vec<u8>, config: Config) -> Self {
        let mut record = [0xA5; 423];
        let (state, answer) =
            make(&bank, &config, &mut record).expect("bank and settings are accepted");
        Self {
            bank,
            config,
            record,
            state,
            answer,
        }
    }

    pub fn send(&mut self, event: Event) -> Answer {
        self.answer = model::event(
            &self.bank,
            &self.config,
            &mut self.record,
            &mut self.state,
            event,
        );
        self.answer
    }

    pub fn command(&mut self, command: Command) -> Answer {
        self.send(Event::Command(command))
    }

    /// Sends the same tick again and again, and gives the last answer.
    pub fn ticks(&mut self, count: u32, v: i32) -> Answer {
        for _ in 0..count {
            assert!(is_accepted(self.send(tick(v))));
        }
        self.answer
    }

    pub fn place(&self) -> (u8, u8, u16, u32, u32, i16) {
        let State {
            mode,
            k,
            r,
            e,
            w,
            b,
            ..
        } = self.state;
        (mode, k, r, e, w, b)
    }

    /// Flags and count of alarm 1.
    pub fn alarm(&self) -> (u8, u16) {
        let Alarm { flags, count } = self.state.alarms[0];
        (flags, count)
    }

    pub fn sound(&self) -> bool {
        model::sound(&self.bank, &self.config, &self.state)
    }

    pub fn readable(&self) -> bool {
        model::readable(&self.bank, &self.config, &self.record)
    }
}

/// Sends an event that must be refused, and checks that it leaves all.
pub fn refuses(controller: &mut Controller, event: Event, number: u8) {
    let (record, state) = (controller.record, controller.state);
    assert_eq!(controller.send(event), refused(number), "{event:?}");
    assert_eq!((controller.record, controller.state), (record, state));
}

/// The steps of pattern p, as the bank was written from them.
pub fn steps_of(bank: &[u8], p: u8) -> Vec<Step> {
    let (_, patterns, steps) = read_back(bank).expect("an accepted bank");
    let (before, from) = patterns.split_at(usize::from(p) - 1);
    let start: usize = before.iter().map(|&(_, s)| usize::from(s)).sum();
    steps[start..start + usize::from(from[0].1)].to_vec()
}

/// Whether a state is in the timer: mode 1 or 2, "Under start choice 0, if step
/// 1's target equals SLL", "in pass 1 alone".
pub fn in_timer(bank: &[u8], state: &State) -> bool {
    let place = ([1, 2].contains(&state.mode), state.k, state.r);
    let (settings, ..) = read_back(bank).expect("an accepted bank");
    place == (true, 1, 1)
        && settings.start == 0
        && steps_of(bank, state.p)[0].target == settings.sll
}

/// A 64-bit generator (xorshift with a multiplication at the end).
pub struct Random(u64);

impl Random {
    pub fn new(seed: u64) -> Self {
        Self(seed.wrapping_mul(0x9E37_79B9_7F4A_7C15) | 1)
    }

    pub fn next(&mut self) -> u64 {
        self.0 ^= self.0 >> 12;
        self.0 ^= self.0 << 25;
        self.0 ^= self.0 >> 27;
        self.0.wrapping_mul(0x2545_F491_4F6C_DD1D)
    }

    /// A number from `least` to `most`, both included.
    pub fn between(&mut self, least: i64, most: i64) -> i64 {
        let span = (most - least + 1) as u64;
        least + ((self.next() >> 16) % span) as i64
    }

    pub fn one_in(&mut self, count: i64) -> bool {
        self.between(1, count) == 1
    }

    pub fn pick<T: Copy>(&mut self, choices: &[T]) -> T {
        choices[self.between(0, choices.len() as i64 - 1) as usize]
    }

    pub fn settings(&mut self) -> Settings {
        let n = self.pick(&[1, 1, 2, 3, 12, 13, 14, 15]);
        let (sll, slh) = self.pick(&[(0, 1_000), (-300, 300), (-19_999, 29_999), (7, 8)]);
        let mut settings = Settings {
            n,
            start: self.between(0, 1) as u8,
            outage: self.between(0, 2) as u8,
            sll,
            slh,
            start_value: self.between(sll.into(), slh.into()) as i16,
            width: self.pick(&[0, 0, 1, 20, 400, 29_999]),
            filter: self.pick(&[0, 1, 10, 37, 999]),
            ..Settings::default()
        };
        for j in 0..4 {
            settings.zones[j] = self.pick(&[0, 0, 1, 50, 9_999]);
            settings.waits[j] = self.pick(&[0, 1, 1, 2, 5_999]);
            settings.on[j] = self.pick(&[0, 1, 2, 5_999]);
            settings.off[j] = self.pick(&[0, 1, 2, 3, 5_999]);
        }
        settings
    }

    pub fn step(&mut self, settings: &Settings) -> Step {
        Step {
            target: self.between(settings.sll.into(), settings.slh.into()) as i16,
            minutes: self.pick(&[0, 0, 0, 1, 1, 2, 3, 5_999, 6_000]),
            wait: self.pick(&[0, 0, 1, 2, 3, 4]),
            signals: std::array::from_fn(|_| self.between(0, 5) as u8),
        }
    }

    /// A bank that the writer accepts, in the form that it takes. Half of the
    /// patterns begin with the target that the timer has.
    pub fn layout(&mut self) -> Contents {
        let settings = self.settings();
        let capacity = 99 / i64::from(settings.n);
        let most = if self.one_in(3) { capacity } else { 3 };
        let mut patterns = [(0, 0); 15];
        let mut steps = [Step::default(); 99];
        let mut at = 0;
        for place in patterns.iter_mut().take(settings.n.into()) {
            let least = i64::from(!self.one_in(8));
            let s = self.between(least, most);
            *place = (self.pick(&[0, 1, 1, 2, 3, 99]), s as u8);
            for step in steps.iter_mut().skip(at).take(s as usize) {
                *step = self.step(&settings);
            }
            if s > 0 && self.one_in(2) {
                steps[at].target = settings.sll;
            }
            at += s as usize;
        }
        (settings, patterns, steps)
    }

    pub fn bank(&mut self) -> Vec<u8> {
        let (settings, patterns, steps) = self.layout();
        let mut out = vec![0; 1_011];
        let length = write(&settings, &patterns, &steps, &mut out).expect("in range");
        out.truncate(length);
        out
    }

    /// A bank under start choice 0; half of its patterns have the timer.
    pub fn bank_from_measured_value(&mut self) -> Vec<u8> {
        let mut bank = self.bank();
        bank[1] = 0;
        bank
    }

    /// An alarm in range, with bounds among the readings that are made here.
    pub fn alarm_setting(&mut self) -> AlarmSetting {
        let kind = self.between(0, 8) as u8;
        let (one, other) = (self.between(-400, 900), self.between(-400, 900));
        let mut bounds = (one as i16, other as i16);
        if matches!(kind, 4 | 8) || !self.one_in(6) {
            bounds = (bounds.0.max(bounds.1), bounds.0.min(bounds.1));
        }
        if self.one_in(20) {
            bounds = (29_999, -19_999);
        }
        AlarmSetting {
            kind,
            high: bounds.0,
            low: bounds.1,
            sensitivity: self.pick(&[0, 0, 1, 50, 300, 9_999]),
            delay: self.pick(&[0, 0, 0, 1, 1, 2, 3, 9_999]),
            flags: self.pick(&[0, 0, 0, HOLD, STANDBY, STANDBY, HOLD | STANDBY]),
        }
    }

    pub fn config(&mut self) -> Config {
        Config {
            alarms: std::array::from_fn(|_| self.alarm_setting()),
        }
    }

    /// Settings of which one field may be out of range.
    pub fn any_config(&mut self) -> Config {
        let mut config = self.config();
        let alarm = &mut config.alarms[self.between(0, 3) as usize];
        match self.between(0, 20) {
            0 => alarm.kind = self.between(0, 255) as u8,
            1 => alarm.high = self.next() as i16,
            2 => alarm.low = self.next() as i16,
            3 => alarm.sensitivity = self.next() as u16,
            4 => alarm.delay = self.next() as u16,
            5 => alarm.flags = self.between(0, 255) as u8,
            _ => {}
        }
        config
    }

    /// An alarm that may be sound or not, most often sound.
    pub fn alarm(&mut self, setting: &AlarmSetting) -> Alarm {
        let delay = setting.delay;
        let mut alarm = Alarm {
            flags: match setting.flags & STANDBY {
                0 => self.pick(&[0, 1]),
                _ => self.pick(&[0, 2, 3]),
            },
            count: self.pick(&[0, delay.min(1), delay]),
        };
        match self.between(0, 24) {
            0 => alarm.flags = self.pick(&[0, 1, 2, 3, 4, 255]),
            1 => alarm.count = self.pick(&[1, 2, 3, 9_999, 10_000, u16::MAX]),
            2 => alarm.count = delay.saturating_add(1),
            _ => {}
        }
        alarm
    }

    pub fn reading(&mut self) -> Reading {
        match self.between(0, 24) {
            0 => Reading::Over,
            1 => Reading::Under,
            2 => Reading::Value(self.pick(&[-20_000, 30_000, i32::MIN, i32::MAX])),
            3 => Reading::Value(self.between(-19_999, 29_999) as i32),
            _ => Reading::Value(self.between(-300, 1_000) as i32),
        }
    }

    pub fn command(&mut self) -> Command {
        match self.between(0, 15) {
            0 => Command::Select(self.between(-1, 16) as i32),
            1..=5 => Command::Start,
            6 | 7 => Command::Pause,
            8 => Command::Reset,
            9 | 10 => Command::Feed,
            11 => Command::Back,
            12 | 13 => Command::Plus,
            _ => Command::Minus,
        }
    }

    /// A tick in most cases; cuts and returns follow each other often enough
    /// that power is on for most of a list.
    pub fn event(&mut self) -> Event {
        match self.between(0, 99) {
            0..=1 => Event::Cut,
            2..=9 => Event::Return(self.reading()),
            10..=18 => Event::Command(self.command()),
            _ => Event::Tick(self.reading()),
        }
    }

    pub fn measured(&mut self) -> Measured {
        match self.between(0, 5) {
            0 => Measured::NoReading,
            1 => Measured::Over,
            2 => Measured::Under,
            3 => Measured::Value(f64::from_bits(self.next())),
            4 => Measured::Value(self.pick(&[-19_999.0, 29_999.0, -0.0, 29_999.000_1, f64::NAN])),
            _ => Measured::Value(self.between(-300, 300) as f64 / 3.0),
        }
    }

    /// A state in which every field may be sound or not, most often sound.
    pub fn state(&mut self, config: &Config) -> State {
        let mode = self.pick(&[0, 1, 1, 2, 2, 3, 3, 4]);
        let cleared = mode == 0 || mode == 3;
        let mut state = State {
            power: !self.one_in(8),
            mode,
            p: self.pick(&[1, 1, 1, 1, 2, 0, 16]),
            k: self.pick(&[1, 1, 1, 1, 1, 2, 0, 100]),
            r: self.pick(&[1, 1, 1, 1, 1, 2, 0, 9_999]),
            e: 0,
            w: self.pick(&[0, 0, 0, 0, 0, 1, 59, 60, u32::MAX]),
            b: 0,
            u: self.pick(&[0, 1, 58, 59, 59, 60, 255]),
            measured: self.measured(),
            credits: [0; 99],
            alarms: [Alarm::default(); 4],
        };
        if !cleared || self.one_in(8) {
            state.e = self.pick(&[0, 0, 1, 59, 60, 119, 120, 359_999, 360_000, u32::MAX]);
            state.b = self.pick(&[0, 1, 200, -19_999, 29_999, 30_000, i16::MIN]);
        }
        if mode != 0 || self.one_in(8) {
            state.alarms = config.alarms.map(|setting| self.alarm(&setting));
        }
        state.credits.fill_with(|| {
            if self.one_in(9) {
                u32::MAX
            } else {
                self.next() as u32
            }
        });
        state
    }
}
