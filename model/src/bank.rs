//! The bank: its check, its writer, and the view that the machine reads.

use crate::fields::{FieldReader, FieldWriter};
use crate::types::{Refusal, Settings, Step, TEMPERATURES};

/// "the number of steps per pattern is read from a table", for n = 1 to 15.
const CAPACITY: [u8; 15] = [99, 49, 33, 24, 19, 16, 14, 12, 11, 9, 9, 8, 7, 7, 6];

/// Where the pairs of body offset and length start.
const PAIRS: usize = 45;
const PAIR_BYTES: usize = 4;
/// Runs and s, before the steps of a body.
const HEAD_BYTES: usize = 2;
const STEP_BYTES: usize = 9;

/// "6,000 = endless"
const ENDLESS: u16 = 6_000;
/// The largest number of minutes everywhere else.
const LONGEST: u16 = 5_999;

impl Step {
    #[inline]
    pub(crate) fn is_endless(&self) -> bool {
        self.minutes == ENDLESS
    }

    /// "T is 60 × minutes."
    #[inline]
    pub(crate) fn seconds(&self) -> u32 {
        60 * u32::from(self.minutes)
    }

    #[inline]
    fn read(bytes: &[u8]) -> Self {
        let mut fields = FieldReader::new(bytes);
        Self {
            target: fields.i16(),
            minutes: fields.u16(),
            wait: fields.u8(),
            signals: fields.bytes(),
        }
    }

    fn write(&self, fields: &mut FieldWriter) {
        fields.put(self.target.to_le_bytes());
        fields.put(self.minutes.to_le_bytes());
        fields.put([self.wait]);
        fields.put(self.signals);
    }

    #[inline]
    fn is_in_range(&self, settings: &Settings) -> bool {
        (settings.sll..=settings.slh).contains(&self.target)
            && self.minutes <= ENDLESS
            && self.wait <= 4
            && self.signals.iter().all(|&signal| signal <= 5)
    }
}

impl Settings {
    #[inline]
    fn read(bytes: &[u8]) -> Self {
        let mut fields = FieldReader::new(bytes);
        let mut settings = Self {
            n: fields.u8(),
            start: fields.u8(),
            outage: fields.u8(),
            sll: fields.i16(),
            slh: fields.i16(),
            start_value: fields.i16(),
            width: fields.u16(),
            filter: fields.u16(),
            ..Self::default()
        };
        for j in 0..4 {
            settings.zones[j] = fields.u16();
            settings.waits[j] = fields.u16();
        }
        for j in 0..4 {
            settings.on[j] = fields.u16();
            settings.off[j] = fields.u16();
        }
        settings
    }

    fn write(&self, fields: &mut FieldWriter) {
        fields.put([self.n, self.start, self.outage]);
        for temperature in [self.sll, self.slh, self.start_value] {
            fields.put(temperature.to_le_bytes());
        }
        fields.put(self.width.to_le_bytes());
        fields.put(self.filter.to_le_bytes());
        for (firsts, seconds) in [(&self.zones, &self.waits), (&self.on, &self.off)] {
            for (first, second) in firsts.iter().zip(seconds) {
                fields.put(first.to_le_bytes());
                fields.put(second.to_le_bytes());
            }
        }
    }

    /// Refusal 12: "first setting out of range", with its offset.
    #[inline]
    fn check(&self) -> Result<(), Refusal> {
        setting(0, (1..=15).contains(&self.n))?;
        setting(1, self.start <= 1)?;
        setting(2, self.outage <= 2)?;
        setting(3, TEMPERATURES.contains(&self.sll))?;
        setting(5, TEMPERATURES.contains(&self.slh) && self.slh > self.sll)?;
        setting(7, (self.sll..=self.slh).contains(&self.start_value))?;
        setting(9, self.width <= 29_999)?;
        setting(11, self.filter <= 999)?;
        check_four_pairs(13, (&self.zones, 9_999), (&self.waits, LONGEST))?;
        check_four_pairs(29, (&self.on, LONGEST), (&self.off, LONGEST))
    }

    /// The most steps that a pattern of this bank can have.
    fn capacity(&self) -> u8 {
        let place = usize::from(self.n).saturating_sub(1);
        CAPACITY.get(place).copied().unwrap_or(0)
    }

    /// The zone and W of a wait number: "W is 60 × the wait minutes of the
    /// step's wait number, 0 for number 0".
    #[inline]
    pub(crate) fn wait(&self, number: u8) -> (u16, u32) {
        match usize::from(number).checked_sub(1) {
            Some(j @ 0..=3) => (self.zones[j], 60 * u32::from(self.waits[j])),
            _ => (0, 0),
        }
    }
}

#[inline]
fn setting(offset: u16, in_range: bool) -> Result<(), Refusal> {
    if in_range {
        Ok(())
    } else {
        Err(Refusal {
            number: 12,
            first: offset,
            second: 0,
        })
    }
}

/// Four pairs of 16 bits from `offset` on, each side with its largest value.
#[inline]
fn check_four_pairs(
    offset: u16,
    (firsts, first_most): (&[u16; 4], u16),
    (seconds, second_most): (&[u16; 4], u16),
) -> Result<(), Refusal> {
    let mut offset = offset;
    for (&first, &second) in firsts.iter().zip(seconds) {
        setting(offset, first <= first_most)?;
        setting(offset + 2, second <= second_most)?;
        offset += 4;
    }
    Ok(())
}

#[inline]
fn wrong_pair(pair: u8) -> Refusal {
    Refusal {
        number: 13,
        first: u16::from(pair),
        second: 0,
    }
}

#[inline]
fn wrong_step(pattern: u8, step: u8) -> Refusal {
    Refusal {
        number: 14,
        first: u16::from(pattern),
        second: step,
    }
}

/// "runs (0–99)"
#[inline]
fn runs_in_range(runs: u8) -> bool {
    runs <= 99
}

/// "A length is 2 + 9s"
fn body_length(s: u8) -> usize {
    HEAD_BYTES + STEP_BYTES * usize::from(s)
}

/// One pattern of an accepted bank.
#[derive(Clone, Copy)]
pub(crate) struct Pattern<'a> {
    pub(crate) runs: u8,
    pub(crate) s: u8,
    steps: &'a [u8],
}

impl Pattern<'_> {
    /// Step k, from 1; zeros if the pattern has none such.
    #[inline]
    pub(crate) fn step(&self, k: u8) -> Step {
        let place = usize::from(k).saturating_sub(1);
        Step::read(self.steps.get(STEP_BYTES * place..).unwrap_or(&[]))
    }

    /// "the limit (runs, or 9,999 for 0)"
    #[inline]
    pub(crate) fn limit(&self) -> u16 {
        match self.runs {
            0 => 9_999,
            runs => u16::from(runs),
        }
    }
}

/// A bank that the check has accepted.
#[derive(Clone, Copy)]
pub(crate) struct Bank<'a> {
    bytes: &'a [u8],
    pub(crate) settings: Settings,
}

impl<'a> Bank<'a> {
    /// The bank's check; "lower numbers come first".
    pub(crate) fn open(bytes: &'a [u8]) -> Result<Self, Refusal> {
        if bytes.len() < PAIRS {
            return Err(Refusal::plain(11));
        }
        let bank = Self {
            bytes,
            settings: Settings::read(bytes),
        };
        bank.settings.check()?;
        bank.check_pairs()?;
        bank.check_bodies()?;
        Ok(bank)
    }

    /// Refusal 13: "first wrong pair; pair 0 if the pairs pass the end; pair n
    /// if bytes follow the last body".
    fn check_pairs(&self) -> Result<(), Refusal> {
        let n = self.settings.n;
        let mut start = PAIRS + PAIR_BYTES * usize::from(n);
        if start > self.bytes.len() {
            return Err(wrong_pair(0));
        }
        let longest = body_length(self.settings.capacity());
        for p in 1..=n {
            let (offset, length) = self.pair(p);
            let well_formed = (HEAD_BYTES..=longest).contains(&length)
                && (length - HEAD_BYTES).is_multiple_of(STEP_BYTES);
            if offset != start || !well_formed || start + length > self.bytes.len() {
                return Err(wrong_pair(p));
            }
            start += length;
        }
        if start < self.bytes.len() {
            return Err(wrong_pair(n));
        }
        Ok(())
    }

    /// Refusal 14: "bodies then go pattern by pattern, runs, s, steps in
    /// order, and the first wrong field ends the walk over patterns and
    /// steps".
    fn check_bodies(&self) -> Result<(), Refusal> {
        for p in 1..=self.settings.n {
            let pattern = self.pattern(p);
            let (steps, _) = pattern.steps.as_chunks::<STEP_BYTES>();
            if !runs_in_range(pattern.runs) || usize::from(pattern.s) != steps.len() {
                return Err(wrong_step(p, 0));
            }
            for (step, k) in steps.iter().zip(1..) {
                if !Step::read(step).is_in_range(&self.settings) {
                    return Err(wrong_step(p, k));
                }
            }
        }
        Ok(())
    }

    /// "Pair i (from 1) belongs to pattern i": body offset and length.
    #[inline]
    fn pair(&self, p: u8) -> (usize, usize) {
        let place = usize::from(p).saturating_sub(1);
        let mut fields = FieldReader::at(self.bytes, PAIRS + PAIR_BYTES * place);
        (usize::from(fields.u16()), usize::from(fields.u16()))
    }

    /// "Body: runs (0–99), s (the s of its length), then s steps of nine
    /// bytes".
    #[inline]
    pub(crate) fn pattern(&self, p: u8) -> Pattern<'a> {
        let (offset, length) = self.pair(p);
        match self.bytes.get(offset..offset + length) {
            Some([runs, s, steps @ ..]) => Pattern {
                runs: *runs,
                s: *s,
                steps,
            },
            _ => Pattern {
                runs: 0,
                s: 0,
                steps: &[],
            },
        }
    }

    #[inline]
    pub(crate) fn step(&self, p: u8, k: u8) -> Step {
        self.pattern(p).step(k)
    }
}

/// Whether the bank is accepted, and if not its refusal, 11 to 14.
pub fn check(bank: &[u8]) -> Result<(), Refusal> {
    Bank::open(bank).map(|_| ())
}

/// "The writer of a bank takes the settings and each pattern's runs and
/// steps, gives 12, 14 (step 0 for an s above the capacity) or 15, else its
/// length, and leaves bytes past its end untouched".
///
/// The patterns are pairs of runs and s, of which the first n are used; the
/// steps of pattern 1 come first, then those of pattern 2, and so on.
pub fn write(
    settings: &Settings,
    patterns: &[(u8, u8); 15],
    steps: &[Step; 99],
    out: &mut [u8],
) -> Result<usize, Refusal> {
    settings.check()?;
    let n = usize::from(settings.n);
    let patterns = patterns.get(..n).unwrap_or(&[]);
    check_patterns(settings, patterns, steps)?;
    let bodies: usize = patterns.iter().map(|&(_, s)| body_length(s)).sum();
    let length = PAIRS + PAIR_BYTES * n + bodies;
    let Some(out) = out.get_mut(..length) else {
        return Err(Refusal::plain(15));
    };
    let mut fields = FieldWriter::new(out);
    settings.write(&mut fields);
    write_pairs(patterns, &mut fields);
    write_bodies(patterns, steps, &mut fields);
    Ok(length)
}

/// The steps of each pattern in turn, split from the steps of all.
fn steps_of<'a>(
    patterns: &'a [(u8, u8)],
    steps: &'a [Step],
) -> impl Iterator<Item = (u8, u8, &'a [Step])> {
    let mut rest = steps;
    patterns.iter().map(move |&(runs, s)| {
        let (first, after) = rest.split_at(rest.len().min(usize::from(s)));
        rest = after;
        (runs, s, first)
    })
}

/// Refusal 14 of the writer.
fn check_patterns(
    settings: &Settings,
    patterns: &[(u8, u8)],
    steps: &[Step],
) -> Result<(), Refusal> {
    let capacity = settings.capacity();
    for ((runs, s, steps), p) in steps_of(patterns, steps).zip(1..) {
        if !runs_in_range(runs) || s > capacity {
            return Err(wrong_step(p, 0));
        }
        for (step, k) in steps.iter().zip(1..) {
            if !step.is_in_range(settings) {
                return Err(wrong_step(p, k));
            }
        }
    }
    Ok(())
}

/// "The first body starts at 45 + 4n, each next where the one before ends".
/// The longest bank has 1,011 bytes, so offsets and lengths fit 16 bits.
fn write_pairs(patterns: &[(u8, u8)], fields: &mut FieldWriter) {
    let mut offset = PAIRS + PAIR_BYTES * patterns.len();
    for &(_, s) in patterns {
        let length = body_length(s);
        fields.put((offset as u16).to_le_bytes());
        fields.put((length as u16).to_le_bytes());
        offset += length;
    }
}

fn write_bodies(patterns: &[(u8, u8)], steps: &[Step], fields: &mut FieldWriter) {
    for (runs, s, steps) in steps_of(patterns, steps) {
        fields.put([runs, s]);
        for step in steps {
            step.write(fields);
        }
    }
}

/// What `write` takes: settings, runs and s of each pattern, steps.
pub type Contents = (Settings, [(u8, u8); 15], [Step; 99]);

/// An accepted bank in the form that `write` takes; unused places are zeros.
pub fn read_back(bank: &[u8]) -> Option<Contents> {
    let bank = Bank::open(bank).ok()?;
    let mut patterns = [(0, 0); 15];
    let mut steps = [Step::default(); 99];
    let mut places = steps.iter_mut();
    for (place, p) in patterns.iter_mut().zip(1..=bank.settings.n) {
        let pattern = bank.pattern(p);
        *place = (pattern.runs, pattern.s);
        for (step, place) in pattern.steps.chunks_exact(STEP_BYTES).zip(&mut places) {
            *place = Step::read(step);
        }
    }
    Some((bank.settings, patterns, steps))
}
