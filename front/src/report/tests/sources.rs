//! Source lines by debug information of gcc and as, and odd debug information.

use super::super::source_lines::SourceLines;
use super::{assembled, built, compiled, object};
use crate::objects::Object;

const SOURCE: &str =
    "static int count = 3;\nextern int undefined(int);\nint first(int x)\n{\n  for (int i = 0; i < x; i++)\n    \
    count += undefined(i);\n  return count;\n}\nint later = 3;";

/// The lines of all offsets of a section.
fn lines_of(object: &Object, name: &str) -> Vec<String> {
    let mut lines = SourceLines::new(object);
    let section = object.sections().find(|section| section.name == name);
    let (index, size) = section.map(|section| (section.index, section.size)).unwrap_or_default();
    (0..size)
        .map(|offset| lines.of_code(index, offset).map_or(String::new(), |line| format!("{}:{}", line.path, line.line)))
        .collect()
}

#[test]
fn lines_of_code_with_each_version_of_dwarf() {
    for flags in [&["-gdwarf-2"][..], &["-gdwarf-3"], &["-gdwarf-4"], &["-gdwarf-5"], &["-g", "-gz"]] {
        let data = match compiled(SOURCE, flags) {
            Some(data) => data,
            None => return,
        };
        let mut lines = lines_of(&object("a.o", data), ".text");
        lines.dedup();
        for line in ["/project/text.c:6", "/project/text.c:8"] {
            assert!(lines.iter().any(|found| found == line), "{flags:?}: {lines:?}");
        }
        assert!(lines.iter().all(|line| line.starts_with("/project/text.c:")), "{flags:?}: {lines:?}");
    }
}

#[test]
fn lines_of_variables() {
    for flags in [&["-gdwarf-2"][..], &["-gdwarf-4"], &["-gdwarf-5"]] {
        let object = match compiled(SOURCE, flags) {
            Some(data) => object("a.o", data),
            None => return,
        };
        let mut lines = SourceLines::new(&object);
        let mut found = Vec::new();
        for symbol in object.symbols().filter(|symbol| symbol.kind == crate::objects::SymbolKind::OBJECT) {
            if let crate::objects::Home::Section(section) = symbol.home {
                found.extend(lines.of_variable(section, symbol.value).map(|line| (symbol.name.to_string(), line.line)));
            }
        }
        found.sort();
        assert_eq!(found, [("count".to_owned(), 1), ("later".to_owned(), 9)], "{flags:?}");
    }
}

#[test]
fn lines_of_an_assembler_s_text() {
    let source = "nop\nnop\n.section .text.b,\"ax\"\n\nnop";
    let object = match built("as", &["-g"], "--debug-prefix-map", source, ".s") {
        Some(data) => object("a.o", data),
        None => return,
    };
    assert_eq!(lines_of(&object, ".text"), ["/project/text.s:1", "/project/text.s:2"]);
    assert_eq!(lines_of(&object, ".text.b"), ["/project/text.s:5"]);
    assert_eq!(lines_of(&object, ".data"), Vec::<String>::new());
}

/// Looks everything up that an object has.
fn look_up_all(data: &[u8]) {
    let object = object("a.o", data.to_vec());
    let mut lines = SourceLines::new(&object);
    for section in object.sections() {
        lines.of_code(section.index, 1);
        lines.of_function(section.index, 0);
        lines.of_variable(section.index, 0);
    }
}

#[test]
fn odd_debug_information_has_no_lines() {
    let mut state = 5u64;
    let mut below = |limit: usize| {
        state ^= state << 13;
        state ^= state >> 7;
        state ^= state << 17;
        (state >> 11) as usize % limit
    };
    for flags in [&["-g"][..], &["-gdwarf-3"], &["-g", "-gz"]] {
        let data = match compiled(SOURCE, flags) {
            Some(data) => data,
            None => return,
        };
        for length in (0..data.len()).step_by(97) {
            look_up_all(&data[..length]);
        }
        for _ in 0..60 {
            let mut changed = data.clone();
            for _ in 0..[1, 5, 50][below(3)] {
                let place = 64 + below(data.len() - 64);
                changed[place] = [0, 1, 0x7f, 0x80, 0xff][below(5)];
            }
            look_up_all(&changed);
        }
    }
}

#[test]
fn tables_of_very_many_files_end() {
    let count = [vec![0xff; 8], vec![0x7f]].concat();
    for forms in [&[0u8][..], &[1, 1, 0x0b], &[1, 1, 0x09]] {
        let header = [&[1, 1, 1, 0xfb, 14, 1], forms, &count, &[0; 100]].concat();
        let body = [&[5, 0, 8, 0][..], &(header.len() as u32).to_le_bytes(), &header].concat();
        let program = [&(body.len() as u32).to_le_bytes()[..], &body].concat();
        let bytes: Vec<String> = program.repeat(50).iter().map(u8::to_string).collect();
        if let Some(data) = assembled(&format!(".section .debug_line\n.byte {}", bytes.join(","))) {
            look_up_all(&data);
        }
    }
}
