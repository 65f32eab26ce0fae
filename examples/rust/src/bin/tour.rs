//! The program of docs/start-rust.md: a first match, groups, replacements, patterns of users, steps and threads.

use regress_front::{Captures, Error, Flags, LinearRegex, Options, Regex, SearchError};
use std::thread;

const TEXT: &str = "from 2024-05-17 to 2025-01-02";

/// A first match. A pattern without back references is linear, and its searches cannot fail.
fn first_match() -> Result<(), Error> {
    let date = LinearRegex::new(r"\d{4}-\d\d-\d\d")?;
    if let Some(found) = date.find(TEXT) {
        println!("{} at {:?}", found.as_str(), found.range());
    }
    println!(
        "{} {}",
        date.is_match("no date"),
        date.find_iter(TEXT).len()
    );
    Ok(())
}

/// Groups, by number and by name.
fn groups(date: &LinearRegex) {
    for found in date.captures_iter(TEXT) {
        println!("{} {} {}", &found["day"], &found[2], &found["year"]);
    }
    let time = found_time("at 12:30").unwrap_or_default();
    println!("{time:?}");
}

/// Returns the hour and the minute; the second is a group that may be unset.
fn found_time(text: &str) -> Option<(u32, u32, Option<u32>)> {
    let time = LinearRegex::new(r"(\d\d):(\d\d)(?::(\d\d))?").ok()?;
    let found = time.captures(text)?;
    let second = found.get(3).and_then(|group| group.as_str().parse().ok());
    Some((found[1].parse().ok()?, found[2].parse().ok()?, second))
}

/// Replacing, by a template and by a function.
fn replacing(date: &LinearRegex) -> Result<(), Error> {
    println!("{}", date.replace_all(TEXT, "$<day>.$<month>.$<year>"));
    let next_year = |found: &Captures| format!("{}", found["year"].parse().unwrap_or(0) + 1);
    println!("{}", date.replace(TEXT, next_year));
    let comma = LinearRegex::new(r",\s*")?;
    println!("{:?}", comma.split("a, b,c").collect::<Vec<_>>());
    Ok(())
}

/// Searches for a pattern of a user: within limits, and each error is a message.
fn search_for_user(pattern: &str, text: &str) -> Result<bool, String> {
    let limits = Options {
        steps: 1_000_000,
        nodes: 10_000,
        instructions: 10_000,
        ..Options::default()
    };
    let regex = Regex::with_options(pattern, Flags::from("u"), limits)
        .map_err(|error| error.to_string())?;
    match regex.is_match(text) {
        Ok(is_match) => Ok(is_match),
        Err(SearchError::OutOfSteps) => Err("no answer, so the text is rejected".into()),
        Err(error) => Err(error.to_string()),
    }
}

/// Threads share a pattern; `clone` is cheap too.
fn threads(date: &LinearRegex) -> usize {
    thread::scope(|scope| {
        let searches: Vec<_> = (0..8)
            .map(|n| scope.spawn(move || date.find_iter(&TEXT.repeat(n)).len()))
            .collect();
        let counts = searches
            .into_iter()
            .map(|search| search.join().unwrap_or(0));
        counts.sum()
    })
}

fn main() -> Result<(), Box<dyn std::error::Error>> {
    let date = LinearRegex::new(r"(?<year>\d{4})-(?<month>\d\d)-(?<day>\d\d)")?;
    first_match()?;
    groups(&date);
    replacing(&date)?;
    println!("{:?}", search_for_user(r"\d+", TEXT));
    println!("{:?}", search_for_user("a)", TEXT));
    println!("{:?}", search_for_user("(?:(?:ab){9999999999}){9999999999}", TEXT));
    println!("{:?}", search_for_user("(a|a)*b", &"a".repeat(100)));
    println!("{:?}", search_for_user(r"(a|a)*\1b", &"a".repeat(100)));
    println!("{:?}", Regex::new(r"(a)\1")?.nonlinear());
    println!("{}", threads(&date));
    Ok(())
}
