//! The words of the language, with the states of the lexer in which each is one (`ldlex.l` of GNU ld); elsewhere they
//! are names.

use super::lexer::State;

const SCRIPT: u8 = 1;
const EXPRESSION: u8 = 2;
const WILD: u8 = 4;
const INPUT_LIST: u8 = 8;
const VERSION_NODE: u8 = 16;
const S: u8 = SCRIPT;
const SE: u8 = SCRIPT | EXPRESSION;
const SEW: u8 = SCRIPT | EXPRESSION | WILD;
const E: u8 = EXPRESSION;
const W: u8 = WILD;

/// Each spelling, what it is, and its states; sorted by spelling.
const WORDS: &[(&str, &str, u8)] = &[
    ("ABSOLUTE", "ABSOLUTE", SE),
    ("ADDR", "ADDR", SE),
    ("AFTER", "AFTER", S),
    ("ALIGN", "ALIGN", SE),
    ("ALIGNOF", "ALIGNOF", SE),
    ("ALIGN_WITH_INPUT", "ALIGN_WITH_INPUT", SE),
    ("ASCII", "ASCII", W),
    ("ASCIZ", "ASCIZ", W),
    ("ASSERT", "ASSERT", SEW),
    ("AS_NEEDED", "AS_NEEDED", INPUT_LIST),
    ("AT", "AT", SEW),
    ("BEFORE", "BEFORE", S),
    ("BIND", "BIND", SE),
    ("BLOCK", "BLOCK", SE),
    ("BYTE", "BYTE", W),
    ("CONSTANT", "CONSTANT", SE),
    ("CONSTRUCTORS", "CONSTRUCTORS", W),
    ("COPY", "COPY", E),
    ("CREATE_OBJECT_SYMBOLS", "CREATE_OBJECT_SYMBOLS", W),
    ("DATA_SEGMENT_ALIGN", "DATA_SEGMENT_ALIGN", SE),
    ("DATA_SEGMENT_END", "DATA_SEGMENT_END", SE),
    ("DATA_SEGMENT_RELRO_END", "DATA_SEGMENT_RELRO_END", SE),
    ("DEFINED", "DEFINED", SE),
    ("DSECT", "DSECT", E),
    ("ENTRY", "ENTRY", S),
    ("EXCLUDE_FILE", "EXCLUDE_FILE", W),
    ("EXTERN", "EXTERN", S),
    ("FILL", "FILL", W),
    ("FLOAT", "FLOAT", S),
    ("FORCE_COMMON_ALLOCATION", "FORCE_COMMON_ALLOCATION", S),
    ("FORCE_GROUP_ALLOCATION", "FORCE_GROUP_ALLOCATION", S),
    ("GROUP", "GROUP", S),
    ("HIDDEN", "HIDDEN", SEW),
    ("HLL", "HLL", S),
    ("INCLUDE", "INCLUDE", SEW),
    ("INFO", "INFO", E),
    ("INHIBIT_COMMON_ALLOCATION", "INHIBIT_COMMON_ALLOCATION", S),
    ("INPUT", "INPUT", S),
    ("INPUT_SECTION_FLAGS", "INPUT_SECTION_FLAGS", W),
    ("INSERT", "INSERT", S),
    ("KEEP", "KEEP", W),
    ("LD_FEATURE", "LD_FEATURE", S),
    ("LENGTH", "LENGTH", SE),
    ("LINKER_VERSION", "LINKER_VERSION", W),
    ("LOADADDR", "LOADADDR", SE),
    ("LOG2CEIL", "LOG2CEIL", SE),
    ("LONG", "LONG", W),
    ("MAP", "MAP", S),
    ("MAX", "MAX", SE),
    ("MEMORY", "MEMORY", S),
    ("MIN", "MIN", SE),
    ("NEXT", "NEXT", SE),
    ("NOCROSSREFS", "NOCROSSREFS", SE),
    ("NOCROSSREFS_TO", "NOCROSSREFS_TO", SE),
    ("NOFLOAT", "NOFLOAT", S),
    ("NOLOAD", "NOLOAD", E),
    ("ONLY_IF_RO", "ONLY_IF_RO", SE),
    ("ONLY_IF_RW", "ONLY_IF_RW", SE),
    ("ORIGIN", "ORIGIN", SE),
    ("OUTPUT", "OUTPUT", S),
    ("OUTPUT_ARCH", "OUTPUT_ARCH", S),
    ("OUTPUT_FORMAT", "OUTPUT_FORMAT", S),
    ("OVERLAY", "OVERLAY", SE),
    ("PHDRS", "PHDRS", S),
    ("PROVIDE", "PROVIDE", SEW),
    ("PROVIDE_HIDDEN", "PROVIDE_HIDDEN", SEW),
    ("QUAD", "QUAD", W),
    ("READONLY", "READONLY", E),
    ("REGION_ALIAS", "REGION_ALIAS", S),
    ("REVERSE", "REVERSE", W),
    ("SEARCH_DIR", "SEARCH_DIR", S),
    ("SECTIONS", "SECTIONS", S),
    ("SEGMENT_START", "SEGMENT_START", SE),
    ("SHORT", "SHORT", W),
    ("SIZEOF", "SIZEOF", SE),
    ("SIZEOF_HEADERS", "SIZEOF_HEADERS", SE),
    ("SORT", "SORT_BY_NAME", W),
    ("SORT_BY_ALIGNMENT", "SORT_BY_ALIGNMENT", W),
    ("SORT_BY_INIT_PRIORITY", "SORT_BY_INIT_PRIORITY", W),
    ("SORT_BY_NAME", "SORT_BY_NAME", W),
    ("SORT_NONE", "SORT_NONE", W),
    ("SPECIAL", "SPECIAL", SE),
    ("SQUAD", "SQUAD", W),
    ("STARTUP", "STARTUP", S),
    ("SUBALIGN", "SUBALIGN", SE),
    ("SYSLIB", "SYSLIB", S),
    ("TARGET", "TARGET", S),
    ("TYPE", "TYPE", E),
    ("VERSION", "VERSION", S),
    ("extern", "extern", VERSION_NODE),
    ("global", "global", VERSION_NODE),
    ("l", "LENGTH", S),
    ("len", "LENGTH", S),
    ("local", "local", VERSION_NODE),
    ("o", "ORIGIN", S),
    ("org", "ORIGIN", S),
];

/// The word that a spelling is in a state of the lexer, if it is one.
pub(super) fn word(state: State, spelling: &[u8]) -> Option<&'static str> {
    let states = match state {
        State::Script => SCRIPT,
        State::Expression => EXPRESSION,
        State::Wild => WILD,
        State::InputList => INPUT_LIST,
        State::VersionNode => VERSION_NODE,
        State::VersionStart | State::VersionScript => 0,
    };
    let index = WORDS.binary_search_by(|(known, _, _)| known.as_bytes().cmp(spelling)).ok()?;
    WORDS.get(index).filter(|(_, _, of)| of & states != 0).map(|(_, word, _)| *word)
}

#[cfg(test)]
mod tests {
    use super::*;

    #[test]
    fn the_table_is_sorted() {
        assert!(WORDS.windows(2).all(|pair| pair[0].0 < pair[1].0));
    }

    #[test]
    fn a_word_is_one_in_its_states_alone() {
        assert_eq!(word(State::Script, b"len"), Some("LENGTH"));
        assert_eq!(word(State::Expression, b"len"), None);
        assert_eq!(word(State::Expression, b"NOLOAD"), Some("NOLOAD"));
        assert_eq!(word(State::Script, b"NOLOAD"), None);
        assert_eq!(word(State::Wild, b"SORT"), Some("SORT_BY_NAME"));
        assert_eq!(word(State::Script, b"SECTION"), None);
    }
}
