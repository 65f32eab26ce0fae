//! Finds dates, and writes them in another way.

use regress_front::Regex;

fn main() -> Result<(), Box<dyn std::error::Error>> {
    let date = Regex::with_flags(r"(?<year>\d{4})-(?<month>\d\d)-(?<day>\d\d)", "u")?;
    let text = "from 2024-05-17 to 2025-01-02";
    for found in date.find_iter(text) {
        println!("{}", found?.as_str());
    }
    println!("{}", date.replace_all(text, "$<day>.$<month>.$<year>")?);
    Ok(())
}
