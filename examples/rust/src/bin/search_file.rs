//! Prints the lines of a file in which a pattern matches: search_file PATTERN FILE. Only one line is in memory, so the
//! file may be of any size.

use regress_front::Regex;
use std::error::Error;
use std::fs::File;
use std::io::{self, BufRead, BufReader, BufWriter, Write};
use std::process::ExitCode;

fn main() -> ExitCode {
    let arguments: Vec<String> = std::env::args().skip(1).collect();
    let [pattern, path] = &arguments[..] else {
        eprintln!("usage: search_file PATTERN FILE");
        return ExitCode::from(2);
    };
    match print_lines(pattern, path) {
        Ok(()) => ExitCode::SUCCESS,
        Err(error) => {
            eprintln!("{error}");
            ExitCode::FAILURE
        }
    }
}

fn print_lines(pattern: &str, path: &str) -> Result<(), Box<dyn Error>> {
    let regex = Regex::with_flags(pattern, "u")?;
    let mut file = BufReader::new(File::open(path)?);
    let mut out = BufWriter::new(io::stdout().lock());
    let mut line = Vec::new();
    while file.read_until(b'\n', &mut line)? > 0 {
        // What is not UTF-8 is searched as U+FFFD, and printed as it is.
        let text = String::from_utf8_lossy(&line);
        if regex.is_match(text.trim_end_matches(['\r', '\n']))? {
            out.write_all(&line)?;
        }
        line.clear();
    }
    Ok(out.flush()?)
}
