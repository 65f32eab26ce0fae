//! The samples of docs/cookbook.md, and what they return.

use regress_front::{
    differences, escape, parse_str, Error, Flags, Node, Options, Regex, SearchError, Table,
};
use std::collections::HashMap;
use std::fs;
use std::path::Path;

type Failure = Box<dyn std::error::Error>;

fn is_email(text: &str) -> Result<bool, Failure> {
    let label = "[a-zA-Z0-9](?:[a-zA-Z0-9-]{0,61}[a-zA-Z0-9])?";
    let local = r"[a-zA-Z0-9.!#$%&'*+\/=?^_`{|}~-]+";
    Ok(Regex::new(&format!(r"^{local}@{label}(?:\.{label})*$"))?.is_match(text)?)
}

fn month_of(text: &str) -> Result<Option<u32>, Failure> {
    let date = r"^(?<year>\d{4})-(?<month>0[1-9]|1[0-2])-(?<day>0[1-9]|[12]\d|3[01])$";
    let Some(found) = Regex::with_flags(date, "u")?.find(text)? else {
        return Ok(None);
    };
    Ok(found
        .named_group("month")
        .map(|span| text[span].parse())
        .transpose()?)
}

fn is_ipv4(text: &str) -> Result<bool, Failure> {
    let octet = r"(?:25[0-5]|2[0-4]\d|1\d\d|[1-9]?\d)";
    Ok(Regex::new(&format!(r"^{octet}(?:\.{octet}){{3}}$"))?.is_match(text)?)
}

fn is_strong(password: &str) -> Result<bool, Failure> {
    let rules = Regex::with_flags(r"^(?=.*\d)(?=.*[a-z])(?=.*[A-Z]).{12,}$", "u")?;
    Ok(rules.is_match(password)?)
}

fn csv_fields(line: &str) -> Result<Vec<String>, Failure> {
    let field = Regex::new(r#"(?<=^|,)(?:"((?:[^"]|"")*)"|([^",]*))(?=,|$)"#)?;
    let mut fields = Vec::new();
    for found in field.find_iter(line) {
        let found = found?;
        fields.push(match found.group(1) {
            Some(inside) => line[inside].replace("\"\"", "\""),
            None => found.as_str().to_string(),
        });
    }
    Ok(fields)
}

fn links(text: &str) -> Result<Vec<&str>, Failure> {
    let link = Regex::new(r#"https?:\/\/[^\s<>"()]*[^\s<>"().,;:!?]"#)?;
    let found: Result<Vec<_>, _> = link.find_iter(text).collect();
    Ok(found?.iter().map(|link| link.as_str()).collect())
}

fn prices(text: &str) -> Result<Vec<f64>, Failure> {
    let price = Regex::with_flags(r"(?<=\$)\d{1,3}(?:,\d{3})*(?:\.\d{2})?(?!\d)", "u")?;
    let mut amounts = Vec::new();
    for found in price.find_iter(text) {
        amounts.push(found?.as_str().replace(',', "").parse()?);
    }
    Ok(amounts)
}

fn first_doubled_word(text: &str) -> Result<Option<usize>, Failure> {
    let doubled = Regex::with_flags(r"\b(\w+)\s+\1\b", "i")?;
    match doubled.find(text) {
        Ok(found) => Ok(found.map(|found| found.start())),
        Err(SearchError::OutOfSteps) => Err("this text takes too long".into()),
        Err(error) => Err(error.into()),
    }
}

fn greek_words(text: &str) -> Result<usize, Failure> {
    let word = Regex::with_flags(r"[\p{Script=Greek}\p{M}]+", "u")?;
    Ok(word.find_all(text)?.len())
}

fn without_comments(source: &str) -> Result<String, Failure> {
    let comment = Regex::new(r"\/\*[^]*?\*\/")?;
    Ok(comment.replace_all(source, " ")?.into_owned())
}

fn request_fields(line: &str) -> Result<HashMap<String, String>, Failure> {
    let request = Regex::new(
        r#"^(?<ip>\S+) \S+ \S+ \[(?<time>[^\]]+)\] "(?<method>[A-Z]+) (?<path>\S+)[^"]*" (?<status>\d{3})"#,
    )?;
    let mut fields = HashMap::new();
    if let Some(found) = request.find(line)? {
        for (name, span) in found.named_groups() {
            if let Some(span) = span {
                fields.insert(name.to_string(), line[span].to_string());
            }
        }
    }
    Ok(fields)
}

fn redacted(line: &str) -> Result<String, Failure> {
    let secret = Regex::with_flags(r"\b(token|password|secret)=[^\s&,]+", "i")?;
    Ok(secret.replace_all(line, "$1=***")?.into_owned())
}

fn rename_photos(folder: &Path) -> Result<(), Failure> {
    let photo = Regex::new(r"^IMG_(\d{4})(\d\d)(\d\d)_(.+)\.jpe?g$")?;
    for entry in fs::read_dir(folder)? {
        let name = entry?.file_name();
        let name = name.to_string_lossy();
        if let Some(found) = photo.find(&name)? {
            fs::rename(
                folder.join(&*name),
                folder.join(photo.expand("$1-$2-$3 $4.jpg", &found)?),
            )?;
        }
    }
    Ok(())
}

fn with_commas(number: &str) -> Result<String, Failure> {
    let gap = Regex::new(r"\B(?=(?:\d{3})+$)")?;
    Ok(gap.replace_all(number, ",")?.into_owned())
}

fn snake_case(name: &str) -> Result<String, Failure> {
    let hump = Regex::new(r"(?<=[a-z\d])[A-Z]")?;
    let written = hump.replace_all_with(name, |m| format!("_{}", m.as_str().to_lowercase()))?;
    Ok(written.into_owned())
}

fn highlighted(text: &str, search: &str) -> Result<String, Failure> {
    let regex = Regex::with_flags(&escape(search), "i")?;
    Ok(regex.replace_all(text, "<b>$&</b>")?.into_owned())
}

fn search_for_a_user(pattern: &str, text: &str) -> Result<bool, String> {
    let options = Options {
        steps: 1_000_000,
        nodes: 10_000,
        instructions: 10_000,
        ..Options::default()
    };
    let flags = Flags {
        unicode: true,
        ..Flags::default()
    };
    let regex = match Regex::with_options(pattern, flags, options) {
        Ok(regex) => regex,
        Err(Error::Syntax {
            message, position, ..
        }) => return Err(format!("{message} at {position}")),
        Err(Error::TooLarge) => return Err("use a shorter pattern".to_string()),
        Err(error) => return Err(error.to_string()),
    };
    // An error is no answer: reject the text, whether a match would allow it or forbid it.
    regex.is_match(text).map_err(|error| error.to_string())
}

fn is_valid(pattern: &str, value: &str) -> Result<bool, Failure> {
    Ok(Regex::with_flags(pattern, "u")?.is_match(value)?)
}

fn lint(pattern: &str, flags: Flags) -> Result<Vec<String>, Failure> {
    let mut warnings = Vec::new();
    for difference in differences(pattern, flags)? {
        warnings.push(format!(
            "{}: {}",
            difference.span.start,
            difference.kind.name()
        ));
    }
    let tree = parse_str(pattern, flags, Table::Whole)?;
    if tree
        .preorder()
        .any(|(_, node)| matches!(node, Node::BackRef { .. }))
    {
        warnings.push("a back reference: searches have a step limit".to_string());
    }
    Ok(warnings)
}

fn main() -> Result<(), Failure> {
    assert!(is_email("ann@example.org")?);
    assert!(!is_email("ann@-example.org")? && !is_email("@example.org")?);
    assert_eq!(month_of("2024-05-17")?, Some(5));
    assert_eq!(month_of("2024-13-17")?, None);
    assert!(is_ipv4("192.168.0.1")? && !is_ipv4("256.1.1.1")? && !is_ipv4("1.2.3")?);
    assert!(is_strong("correct horse 1B")?);
    assert!(!is_strong("Short1")? && !is_strong("only lower case 1")?);
    assert_eq!(
        csv_fields(r#"a,"b, ""c""",,d"#)?,
        ["a", "b, \"c\"", "", "d"]
    );
    let text = "see https://example.org/a?b=c, or (http://example.com/x).";
    assert_eq!(
        links(text)?,
        ["https://example.org/a?b=c", "http://example.com/x"]
    );
    assert_eq!(prices("from $1,299.50 to $20, not $1234")?, [1299.5, 20.0]);
    assert_eq!(first_doubled_word("it is is what The the")?, Some(3));
    assert_eq!(greek_words("the word λόγος, and ΝΟΥΣ")?, 2);
    assert_eq!(without_comments("a/* b\nc */d /* e */")?, "a d  ");
    let line = "127.0.0.1 - - [17/May/2024:10:00:00 +0000] \"GET /a HTTP/1.1\" 200 12";
    let fields = request_fields(line)?;
    assert_eq!(
        (
            fields["path"].as_str(),
            fields["status"].as_str(),
            fields.len()
        ),
        ("/a", "200", 5)
    );
    assert_eq!(
        redacted("GET /a?user=ann&Token=s3cr3t HTTP/1.1")?,
        "GET /a?user=ann&Token=*** HTTP/1.1"
    );
    let folder = std::env::temp_dir().join(format!("cookbook-{}", std::process::id()));
    fs::create_dir(&folder)?;
    fs::write(folder.join("IMG_20240517_beach.jpeg"), "")?;
    rename_photos(&folder)?;
    assert!(folder.join("2024-05-17 beach.jpg").exists());
    fs::remove_dir_all(&folder)?;
    assert_eq!(with_commas("1234567")?, "1,234,567");
    assert_eq!(with_commas("999")?, "999");
    assert_eq!(snake_case("parseHttpUrl2Go")?, "parse_http_url2_go");
    assert_eq!(highlighted("Is 1+1 = 2?", "1+1")?, "Is <b>1+1</b> = 2?");
    assert_eq!(search_for_a_user(r"\d+", "on 17"), Ok(true));
    assert_eq!(
        search_for_a_user("a)", ""),
        Err(r"unmatched `)` (write `\)` for the character) at 1".to_string())
    );
    assert_eq!(
        search_for_a_user("(?:(?:ab){9999999999}){9999999999}", ""),
        Err("use a shorter pattern".to_string())
    );
    let hostile = search_for_a_user(r"(a|a)*\1b", &"a".repeat(40));
    assert_eq!(hostile, Err("the search takes too many steps".to_string()));
    assert!(!is_valid(r"^\d{5}$", "1234")? && is_valid(r"^\p{Lu}", "Änne")?);
    let found = lint(r"[k](a)\1", "i".parse()?)?;
    assert_eq!(
        found,
        [
            "0: case-closure",
            "a back reference: searches have a step limit"
        ]
    );
    assert!(lint("a+b", Flags::default())?.is_empty());
    println!("the samples of the cookbook in Rust return what they should");
    Ok(())
}
