//! Tokens in each state, as by the rules of `ldlex.l`: the longest match, and among equals the first rule.

use super::super::lexer::{scan, Kind, State};
use super::print::is_bare;

use State::{Expression, InputList, Script, VersionNode, VersionScript, VersionStart, Wild};

/// The first token of a text, and how much of the text it is.
fn first(state: State, text: &str) -> Option<(Kind, &str)> {
    scan(state, text.as_bytes()).map(|(kind, length)| (kind, &text[..length]))
}

#[test]
fn names_have_the_bytes_of_their_state() {
    for (state, text, name) in [
        (Script, "a-b+c:d[1],e=f g", "a-b+c:d[1],e=f"),
        (Script, "~a/b\\c$d~", "~a/b\\c$d~"),
        (Script, "a*b", "a"),
        (Expression, "a-b", "a"),
        (Expression, "a/b~c$d=e", "a/b~c$d"),
        (Expression, "\\a", "\\a"),
        (Wild, "*crt?.o(", "*crt?.o"),
        (Wild, "!a^b,c=d:e&f", "!a^b,c=d:e"),
        (Wild, "[a-z]*", "[a-z]*"),
        (Wild, ".text,", ".text,"),
        (InputList, "=a,b c", "=a,b"),
        (InputList, "a.o(", "a.o"),
        (VersionNode, "ns::f*:", "ns::f*"),
        (VersionNode, "-!^[a]?\\;", "-!^[a]?\\"),
        (VersionScript, "$V_1.0:", "$V_1.0"),
    ] {
        assert_eq!(first(state, text), Some((Kind::Name, name)), "{text}");
    }
}

#[test]
fn names_do_not_begin_with_every_byte_of_theirs() {
    for (state, text) in
        [(Script, "[a"), (InputList, "1.o"), (InputList, "*.o"), (VersionStart, "a"), (VersionScript, "1")]
    {
        assert_eq!(first(state, text), None, "{text}");
    }
    assert_eq!(first(Expression, "/a"), Some((Kind::Mark("/"), "/")));
    assert_eq!(first(Expression, "~a"), Some((Kind::Mark("~"), "~")));
    assert_eq!(first(Expression, "/DISCARD/"), Some((Kind::Name, "/DISCARD/")));
}

#[test]
fn marks_are_those_of_the_state() {
    for (state, text, mark) in [
        (Script, "<<=", "<<="),
        (Script, "/=", "/="),
        (Script, "> a", ">"),
        (Script, "~ a", "~"),
        (Expression, "<<", "<<"),
        (Expression, "<= a", "<="),
        (Expression, "&& a", "&&"),
        (Expression, "? a", "?"),
        (Wild, "+= 4", "+="),
        (Wild, "[ a", "["),
        (Wild, "] a", "]"),
        (Wild, "= 4", "="),
        (InputList, ", a", ","),
        (VersionNode, ": a", ":"),
        (VersionStart, "{", "{"),
    ] {
        assert_eq!(
            first(state, text).map(|(kind, text)| (kind, text.to_owned())),
            Some((mark_of(mark), mark.to_owned()))
        );
    }
    for (state, text) in [(Script, "?"), (Script, "&"), (Script, "<"), (Wild, "> a"), (Wild, "| a"), (InputList, ";")] {
        assert_eq!(first(state, text), None, "{text}");
    }
}

fn mark_of(mark: &str) -> Kind {
    let marks = ["<<=", "/=", ">", "~", "<<", "<=", "&&", "?", "+=", "[", "]", "=", ",", ":", "{"];
    marks.iter().find(|own| **own == mark).map_or(Kind::End, |own| Kind::Mark(own))
}

#[test]
fn the_longest_match_counts() {
    assert_eq!(first(Wild, "+=4 "), Some((Kind::Name, "+=4")), "a name goes before a mark that it begins with");
    assert_eq!(first(Script, "/=2"), Some((Kind::Name, "/=2")));
    assert_eq!(first(Script, "$f"), Some((Kind::Number(15), "$f")), "a number goes before a name of its length");
    assert_eq!(first(Script, "$fg"), Some((Kind::Name, "$fg")));
    assert_eq!(first(Expression, "add"), Some((Kind::Number(0), "add")));
    assert_eq!(first(Expression, "adds"), Some((Kind::Name, "adds")));
    assert_eq!(first(Expression, "0x10"), Some((Kind::Number(16), "0x10")));
    assert_eq!(first(Expression, "10h"), Some((Kind::Number(16), "10h")));
    assert_eq!(first(Script, "10h"), Some((Kind::Number(10), "10")));
    assert_eq!(first(Script, "0xg"), Some((Kind::Number(0), "0")));
    assert_eq!(first(Wild, "10"), Some((Kind::Name, "10")), "between the braces of a section there are no numbers");
}

#[test]
fn words_are_words_in_their_states_alone() {
    assert_eq!(first(Script, "SECTIONS{"), Some((Kind::Word("SECTIONS"), "SECTIONS")));
    assert_eq!(first(Expression, "SECTIONS"), Some((Kind::Name, "SECTIONS")));
    assert_eq!(first(Script, "SECTIONS-a"), Some((Kind::Name, "SECTIONS-a")));
    assert_eq!(first(Script, "org "), Some((Kind::Word("ORIGIN"), "org")));
    assert_eq!(first(InputList, "AS_NEEDED("), Some((Kind::Word("AS_NEEDED"), "AS_NEEDED")));
    assert_eq!(first(VersionNode, "global:"), Some((Kind::Word("global"), "global")));
}

#[test]
fn libraries_stand_in_lists_of_files_alone() {
    assert_eq!(first(InputList, "-lc)"), Some((Kind::Library, "-lc")));
    assert_eq!(first(InputList, "-l "), None);
    assert_eq!(first(Script, "-lc"), Some((Kind::Mark("-"), "-")));
}

#[test]
fn quotes_give_what_is_inside_in_all_states_but_two() {
    for state in [Script, Expression, Wild, InputList, VersionNode] {
        assert_eq!(first(state, "\"a b\" c"), Some((Kind::Quoted, "\"a b\"")));
        assert_eq!(first(state, "\"a b"), None, "without an end they begin nothing");
    }
    for state in [VersionStart, VersionScript] {
        assert_eq!(first(state, "\"a\""), None);
    }
}

#[test]
fn a_name_is_bare_where_it_is_one_token() {
    for (state, name, is_one) in [
        (Script, "a-b", true),
        (Script, "ENTRY", false),
        (Script, "a b", false),
        (Script, "", false),
        (Expression, "a-b", false),
        (Expression, "add", false),
        (Wild, "/*", false),
        (Wild, "a/*b*/", true),
        (InputList, "-lc", false),
    ] {
        assert_eq!(is_bare(state, name.as_bytes()), is_one, "{name}");
    }
}
