//! One message as a line, over several lines, in colour and as JSON.

use std::path::Path;

use super::super::{Diagnostic, Excerpt, JsonObject, Severity, Style};
use crate::script::parse;

fn of_script(text: &str) -> Diagnostic {
    match parse(Path::new("s.ld"), text.as_bytes()) {
        Err(error) => Diagnostic::from(&error),
        Ok(_) => Diagnostic::error("it is read"),
    }
}

#[test]
fn a_fault_of_a_script_has_its_line_and_what_is_meant_in_it() {
    let found = of_script("a = 1;\n\tb = 4 4;\n");
    assert_eq!(found.to_string(), "s.ld:2: `;` is expected, not `4`: b = 4 4;");
    assert_eq!((found.line, found.column), (Some(2), Some(8)));
    let wanted = "s.ld:2: error: `;` is expected, not `4`\n    2 |  b = 4 4;\n      |        ^";
    assert_eq!(found.render(Style::Excerpt), wanted);
}

#[test]
fn what_may_be_meant_is_advice() {
    let found = of_script("x=1;");
    let advice = "`x=1` is one name for GNU ld: write spaces around `=`";
    assert_eq!(found.to_string(), format!("s.ld:1: `=` is expected, not `;`; {advice}: x=1;"));
    assert!(found.render(Style::Excerpt).ends_with(&format!("\nto do: {advice}")));
}

#[test]
fn colour_is_by_escape_sequences_alone() {
    let found = of_script("x = ;");
    let coloured = found.render(Style::Coloured);
    let mut plain = String::new();
    let mut parts = coloured.split('\x1b');
    plain.push_str(parts.next().unwrap_or_default());
    parts.for_each(|part| plain.push_str(part.split_once('m').map_or("", |(_, text)| text)));
    assert_ne!(coloured, plain);
    assert_eq!(plain, found.render(Style::Excerpt));
}

#[test]
fn a_long_line_is_cut_and_bytes_are_shown() {
    let line = [b"\t\xff\x1b[2J".to_vec(), vec![b'y'; 200]].concat();
    let found = Diagnostic { excerpt: Some(Excerpt::of_line(&line)), ..Diagnostic::error("what") };
    assert_eq!(found.to_string(), format!("what: \\xff\\x1b[2J{} ..", "y".repeat(149)));
}

#[test]
fn json_has_the_parts() {
    let found = Diagnostic::new(Severity::Warning, "a \"b\"\n").of_file("x\\y").with_note("n").with_advice("do");
    let found = Diagnostic { rule: Some("F5 2".into()), ..found };
    let wanted = "{\"severity\": \"warning\", \"message\": \"x\\\\y: a \\\"b\\\"\\n; n: do\", \"line\": \"F5 2\", \
        \"place\": {\"file\": \"x\\\\y\"}, \"sentence\": \"a \\\"b\\\"\\n\", \"notes\": [\"n\"], \"advice\": \"do\"}";
    assert_eq!(found.add_to(JsonObject::new()).finish(), wanted);
    let json = of_script("x = ;").add_to(JsonObject::new()).finish();
    for member in
        ["\"place\": {\"file\": \"s.ld\", \"line\": 1, \"column\": 5}", "\"text\": \"x = ;\"", "\"length\": 1"]
    {
        assert!(json.contains(member), "{json}");
    }
}

#[test]
fn a_warning_of_a_script_is_one() {
    let reading = parse(Path::new("s.ld"), b"x = 1; @").unwrap_or_default();
    let found: Vec<String> = reading.warnings.iter().map(|warning| Diagnostic::from(warning).to_string()).collect();
    assert_eq!(found, ["s.ld:1: ignoring invalid character `@`"]);
}
