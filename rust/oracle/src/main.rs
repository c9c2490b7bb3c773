//! The Rust behind the console's lines: one answer line for each line read.
//!
//! `0 ..` is what the Rust answers, `refused` that it gives an error, `overflow` that its arithmetic leaves a type,
//! `-` that it has no such call or its parameter types cannot take the input, and `?` and the empty line are the
//! console's own. The oracle adds no check: it tells what the Rust does with whatever it is handed.

use lines::Request;
use std::io::{Read, Write};
use std::panic::{catch_unwind, AssertUnwindSafe};

// The Rust's text takes its strings from there.
extern crate alloc;

mod calls;
mod filled;
mod trial;

// The Rust's text, as rust/oracle/build lays it beside this file.
#[allow(dead_code, unused_imports)]
mod iso;
#[allow(dead_code)]
mod options;
#[allow(dead_code)]
mod parsers;
#[allow(dead_code)]
mod rounding;
#[allow(dead_code, unused_imports)]
mod utils;
#[allow(dead_code, unused_imports)]
mod builtins {
    pub(crate) mod core {
        pub(crate) mod duration;
        pub(crate) use crate::filled::plain::{calendar, PartialTime, PlainDate};
    }
    pub(crate) use self::core::duration;
}

// What that text looks for at the crate's root.
#[allow(unused_imports)]
pub(crate) use builtins::core::{duration::Duration, PlainDate};
pub(crate) use filled::root::{unix_time, Sign, TemporalUnwrap};
pub(crate) use filled::root::{MS_PER_DAY, NS_MAX_INSTANT, NS_MIN_INSTANT, NS_PER_DAY, NS_PER_DAY_NONZERO};
pub(crate) use filled::{error, error::TemporalError, error::TemporalResult};
pub(crate) use filled::{ixdtf, num_traits, timezone_provider, writeable};

fn main() {
    std::panic::set_hook(Box::new(|_| {}));
    let mut text = Vec::new();
    std::io::stdin().read_to_end(&mut text).expect("standard input is read to its end");
    let mut out = std::io::BufWriter::new(std::io::stdout().lock());
    for line in lines::lines(&text) {
        writeln!(out, "{}", answer(line)).expect("an answer is written");
    }
    out.flush().expect("the answers are written");
}

fn answer(line: &[u8]) -> String {
    if line.is_empty() {
        return String::new();
    }
    let Some(request) = Request::read(line) else {
        return "?".to_string();
    };
    match catch_unwind(AssertUnwindSafe(|| calls::answer(&request))) {
        Ok(answer) => answer,
        Err(panic) => panic_answer(panic.downcast_ref::<&str>().copied()),
    }
}

/// Only an arithmetic overflow is reported as one: any other panic is a fault to be looked at.
fn panic_answer(message: Option<&str>) -> String {
    match message {
        Some(text) if text.starts_with("attempt to ") && text.ends_with(" with overflow") => "overflow".to_string(),
        _ => "panicked".to_string(),
    }
}
