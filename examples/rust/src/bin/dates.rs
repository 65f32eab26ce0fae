//! Prints the dates of a text, and the text with each written in another way: dates TEXT [PATTERN].

use regress_front::Regex;
use std::error::Error;
use std::process::ExitCode;

const DATE: &str = r"(?<year>\d{4})-(?<month>\d\d)-(?<day>\d\d)";

fn main() -> ExitCode {
    let mut arguments = std::env::args().skip(1);
    let text = arguments.next().unwrap_or_default();
    let pattern = arguments.next().unwrap_or(DATE.into());
    match print_dates(&text, &pattern) {
        Ok(()) => ExitCode::SUCCESS,
        Err(error) => {
            eprintln!("{error}");
            ExitCode::FAILURE
        }
    }
}

fn print_dates(text: &str, pattern: &str) -> Result<(), Box<dyn Error>> {
    let regex = Regex::with_flags(pattern, "u")?;
    for found in regex.find_iter(text) {
        let found = found?;
        println!("{} at {}", found.as_str(), found.start());
    }
    println!("{}", regex.replace_all(text, "$<day>.$<month>.$<year>")?);
    Ok(())
}
