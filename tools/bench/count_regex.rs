//! count_regex FILE PATTERN all|first|again|compile: prints the number of matches, and the CPU seconds and the seconds
//! of the search, by the crate `regex`; with `again` of the first match and its groups, with `compile` of compiling and
//! of the first match together, each the mean of many runs. The status is 1 if the pattern is rejected.
use std::ffi::c_long;
use std::process::ExitCode;
use std::time::Instant;
use std::{env, fs};

unsafe extern "C" {
    safe fn clock() -> c_long;
}

/// Returns the CPU seconds of this process.
fn used() -> f64 {
    clock() as f64 / 1e6
}

/// How long it is run again and again, in seconds.
const SPENT: f64 = 0.05;

/// How often a search is repeated between two looks at the clock.
const REPEATED: u32 = 100;

/// Runs a search again and again, `times` times between two looks at the clock. Returns whether it finds a match, and the
/// mean time.
fn repeat(
    times: u32,
    mut search: impl FnMut() -> Result<bool, regex::Error>,
) -> Result<(bool, f64), regex::Error> {
    let (before, mut runs, mut found) = (used(), 0.0, false);
    loop {
        for _ in 0..times {
            found = search()?;
        }
        runs += f64::from(times);
        let spent = used() - before;
        if spent >= SPENT {
            return Ok((found, spent / runs));
        }
    }
}

fn main() -> ExitCode {
    let arguments: Vec<String> = env::args().skip(1).collect();
    let [file, pattern, mode] = arguments.as_slice() else {
        return ExitCode::from(3);
    };
    let Ok(text) = fs::read_to_string(file) else {
        return ExitCode::from(3);
    };
    let Ok(regex) = regex::Regex::new(pattern) else {
        return ExitCode::from(1);
    };
    let mean = match mode.as_str() {
        "again" => {
            let mut groups = regex.capture_locations();
            Some(repeat(REPEATED, || {
                Ok(regex.captures_read(&mut groups, &text).is_some())
            }))
        }
        "compile" => Some(repeat(1, || {
            Ok(regex::Regex::new(pattern)?.find(&text).is_some())
        })),
        _ => None,
    };
    if let Some(mean) = mean {
        let Ok((found, mean)) = mean else {
            return ExitCode::from(1);
        };
        println!("{} {mean:.9} {mean:.9}", u8::from(found));
        return ExitCode::SUCCESS;
    }
    let started = Instant::now();
    let before = used();
    let count = match mode.as_str() {
        "all" => regex.find_iter(&text).count(),
        _ => regex.find(&text).iter().count(),
    };
    println!(
        "{count} {} {}",
        used() - before,
        started.elapsed().as_secs_f64()
    );
    ExitCode::SUCCESS
}
