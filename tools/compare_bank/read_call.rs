//! Calls read from lines of numbers.

use crate::call::{Call, Run, Service, Status, SLOTS};

/// The largest lengths that a list may lend.
const MOST_SLOTS: usize = 80;
const MOST_SAMPLES: usize = 700;

/// Nothing, if the line is not a call.
pub fn call(line: &str) -> Option<Call> {
    let mut words = Words(line.split(' '));
    let code: u8 = words.number()?;
    let call = match code {
        0..=7 => demand(code, &mut words)?,
        8 => Call::Service(service(&mut words)?),
        9 => interrupt(&mut words)?,
        _ => other(code, &mut words)?,
    };
    words.0.next().is_none().then_some(call)
}

struct Words<'a>(std::str::Split<'a, char>);

impl Words<'_> {
    fn number<T: TryFrom<u64>>(&mut self) -> Option<T> {
        let word = self.0.next()?;
        let digits = word.bytes().all(|letter| letter.is_ascii_digit());
        let number: u64 = digits.then(|| word.parse().ok())??;
        number.try_into().ok()
    }

    fn numbers<T: TryFrom<u64> + Copy + Default, const N: usize>(&mut self) -> Option<[T; N]> {
        let mut numbers = [T::default(); N];
        for number in &mut numbers {
            *number = self.number()?;
        }
        Some(numbers)
    }

    fn flags<const N: usize>(&mut self) -> Option<[bool; N]> {
        let numbers: [u8; N] = self.numbers()?;
        let known = numbers.iter().all(|flag| *flag < 2);
        known.then(|| numbers.map(|flag| flag == 1))
    }

    /// A number that is at most `most`.
    fn length(&mut self, most: usize) -> Option<usize> {
        self.number().filter(|length| *length <= most)
    }
}

fn demand(code: u8, words: &mut Words) -> Option<Call> {
    Some(match code {
        0 => Call::FromLanes(words.numbers()?),
        1 => Call::EnableBidirectional(words.flags::<1>()?[0]),
        2 => Call::CommandStop,
        3 => Call::CommandThrottles {
            commands: words.numbers()?,
            now: words.number()?,
            lease: words.number()?,
        },
        4 => Call::CommandSpecial {
            motor: words.number()?,
            run: Run {
                commands: words.numbers()?,
                index: words.number()?,
                repeats_left: words.number()?,
            },
        },
        5 => Call::RequestTelemetry(words.number()?),
        6 => Call::CancelTelemetryRequest,
        _ => Call::TakeTelemetryRequestSent,
    })
}

fn service(words: &mut Words) -> Option<Service> {
    let mut service = Service {
        now: words.number()?,
        taken: words.flags()?,
        present: words.flags()?,
        masks: words.numbers()?,
        lengths: [words.length(MOST_SLOTS)?, words.length(MOST_SLOTS)?],
        capture_length: words.length(MOST_SAMPLES)?,
        runs: Vec::new(),
    };
    let mut room = service.capture_length;
    for _ in 0..words.length(MOST_SAMPLES)? {
        let (sample, times) = (words.number()?, words.length(room)?);
        room -= times;
        service.runs.push((sample, times));
    }
    Some(service)
}

fn interrupt(words: &mut Words) -> Option<Call> {
    let motor = words.number()?;
    let [complete, error, turned, back] = words.flags()?;
    let status = Status {
        complete,
        error,
        turned,
        back,
    };
    Some(Call::OnDmaInterrupt { motor, status })
}

fn other(code: u8, words: &mut Words) -> Option<Call> {
    Some(match code {
        10 => Call::TakeReplies,
        11 => Call::IsBidirectional,
        12 => Call::IsFaulted,
        13 => Call::Stats,
        14 => Call::RequestedValues,
        15 => Call::CommandPending,
        16 => Call::ReplyStats,
        17 => Call::View {
            motor: words.number()?,
            lengths: [words.length(MOST_SLOTS)?, words.length(MOST_SLOTS)?],
        },
        18 => Call::Write {
            buffer: words.length(1)?,
            slot: words.length(SLOTS - 1)?,
            value: words.number()?,
        },
        19 => Call::SetStats(words.numbers()?),
        20 => Call::SetReplyStats(words.numbers()?),
        21 => Call::FallbackReleaseDue {
            now: words.number()?,
            last: words.number()?,
        },
        _ => return None,
    })
}
