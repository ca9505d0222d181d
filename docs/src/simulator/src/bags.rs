//! The stream of the program `bags`: services to parse, carry out and print.
//!
//! A service is a case's header, file and memory, then seven numbers of 4 bytes
//! (the window's first word and size, the number of budgets, restarts and words,
//! the lengths of the lent endings and steps), then budgets of 4 bytes, restarts
//! of 1 byte and words of 2.

use std::fmt::Write as _;
use std::io::{self, Read, Write};

use crate::cases::{
    bytes_of as case_bytes, check, lent, long_at, next_run, print_each, state_fields, take_whole,
    words_of, Case, Next, NoCase,
};
use crate::serve::{serve, Lent, Window};
use crate::service::Service;
use crate::state::State;

/// Bytes of the seven numbers.
const SIZES: usize = 28;
/// The most budgets, restarts, words, endings and steps.
const MOST: [u32; 5] = [256, 256, 4_096, 256, 256];

/// One service of a stream: what the call `serve` is handed.
#[derive(Clone, Debug, PartialEq, Eq)]
pub struct Serving {
    /// File, settings, state and memory.
    pub start: Case,
    /// The window's first word and its size.
    pub window: [u32; 2],
    pub budgets: Vec<u32>,
    /// 0 goes on, anything else starts again.
    pub restarts: Vec<u8>,
    pub words: Vec<u16>,
    /// The lengths of the lent endings and steps.
    pub room: [u32; 2],
}

/// What a service comes to: the answer, and memory, endings and steps as they
/// stand after the call.
#[derive(Clone, Debug, PartialEq, Eq)]
pub struct Served {
    pub answer: Result<State, u8>,
    pub memory: Vec<u16>,
    pub endings: Vec<u8>,
    pub steps: Vec<u32>,
}

impl Serving {
    fn window(&self) -> Window {
        let [first, size] = self.window.map(|number| number as usize);
        Window { first, size }
    }

    /// Lend the slices, item i of endings and steps holding i mod 251.
    fn lending<T>(&self, call: impl FnOnce(&mut Lent) -> T) -> (T, Vec<u8>, Vec<u32>) {
        let restarts: Vec<bool> = self.restarts.iter().map(|&byte| byte != 0).collect();
        let mut endings: Vec<u8> = lent(self.room[0]).collect();
        let mut steps: Vec<u32> = lent(self.room[1]).map(u32::from).collect();
        let answer = call(&mut Lent {
            budgets: &self.budgets,
            restarts: &restarts,
            words: &self.words,
            endings: &mut endings,
            steps: &mut steps,
        });
        (answer, endings, steps)
    }

    pub fn serve(&self) -> Served {
        let Case {
            file,
            settings,
            state,
            ..
        } = &self.start;
        let mut memory = self.start.memory.clone();
        let (answer, endings, steps) =
            self.lending(|lent| serve(file, settings, state, &mut memory, &self.window(), lent));
        Served {
            answer,
            memory,
            endings,
            steps,
        }
    }

    /// The bags of a call that is not refused, as a service.
    pub fn service(&self) -> Service {
        let (bags, _, _) = self.lending(|lent| lent.bags(&self.window()));
        Service {
            start: self.start.clone(),
            bags,
        }
    }
}

/// The line of a service, without its line feed.
pub fn line(serving: &Serving) -> String {
    let served = serving.serve();
    let (first, state, bags) = match served.answer {
        Ok(state) => ("served".to_string(), state, serving.budgets.len()),
        Err(number) => (format!("refused{number}"), serving.start.state, 0),
    };
    let mut line = format!(
        "{first} {} {} {}",
        state_fields(&state, &served.memory),
        check(served.endings.iter().map(|&code| u32::from(code))),
        check(served.steps.iter().copied())
    );
    for (code, steps) in served.endings.iter().zip(&served.steps).take(bags) {
        let _ = write!(line, " {code:04X} {steps}");
    }
    line
}

/// The next service. The five numbers are judged as soon as they are there.
pub fn next_serving(input: &mut impl Read) -> Next<Serving> {
    let start = match next_run(input)? {
        Ok(start) => start,
        Err(none) => return Ok(Err(none)),
    };
    let sizes = match take_whole(input, SIZES)? {
        Ok(sizes) => sizes,
        Err(none) => return Ok(Err(none)),
    };
    let numbers: [u32; 7] = std::array::from_fn(|i| long_at(&sizes, 4 * i));
    let [first, size, lengths @ ..] = numbers;
    if lengths
        .iter()
        .zip(MOST)
        .any(|(&length, most)| length > most)
    {
        return Ok(Err(NoCase::TooLarge));
    }
    let [budgets, restarts, words, endings, steps] = lengths;
    let [budgets, restarts, words] = [budgets, restarts, words].map(|length| length as usize);
    let lists = take_whole(input, 4 * budgets + restarts + 2 * words)?;
    Ok(lists.map(|lists| {
        let (longs, rest) = lists.split_at(4 * budgets);
        let (bytes, rest) = rest.split_at(restarts);
        Serving {
            start,
            window: [first, size],
            budgets: longs.chunks_exact(4).map(|four| long_at(four, 0)).collect(),
            restarts: bytes.to_vec(),
            words: words_of(rest),
            room: [endings, steps],
        }
    }))
}

/// Print the lines of a whole stream of services.
pub fn print_lines(input: impl Read, output: impl Write) -> io::Result<()> {
    print_each(input, output, next_serving, line)
}

/// The bytes of a service, as the stream holds them.
pub fn bytes_of(serving: &Serving) -> Vec<u8> {
    let mut bytes = case_bytes(&serving.start);
    let mut put = |part: &[u8]| bytes.extend_from_slice(part);
    let [budgets, restarts, words] = [
        serving.budgets.len(),
        serving.restarts.len(),
        serving.words.len(),
    ]
    .map(|length| length as u32);
    let [first, size] = serving.window;
    let [endings, steps] = serving.room;
    for number in [first, size, budgets, restarts, words, endings, steps] {
        put(&number.to_le_bytes());
    }
    serving.budgets.iter().for_each(|n| put(&n.to_le_bytes()));
    put(&serving.restarts);
    serving
        .words
        .iter()
        .for_each(|word| put(&word.to_le_bytes()));
    bytes
}

/// The stream of these services.
pub fn stream_of(servings: &[Serving]) -> Vec<u8> {
    servings.iter().flat_map(bytes_of).collect()
}
