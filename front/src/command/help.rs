//! The help text of `ld.ldi`: every option of the table, by how it is handled.

use super::options::{dashed, Argument, Effect, OptionRow, OPTIONS};

const BEGIN: &str = "\
Usage: ld.ldi [options] file...
GNU ld's command line in front of ldi, for Makefiles: LD=ld.ldi. LDI names ldi itself, LDI_FALLBACK the linker that
makes what ldi does not (none: no linker). @FILE stands for the words of a file.
";
const END: &str = "\nld.ldi: supported targets: elf64-x86-64\nld.ldi: supported emulations: elf_x86_64\n";
const WIDTH: usize = 110;
const INDENT: &str = "  ";

/// The text of `--help`.
pub fn help() -> String {
    let part = |heading: &str, belongs: fn(&Effect) -> bool| {
        let names_and_value: Vec<String> =
            OPTIONS.iter().filter(|row| belongs(&row.effect)).map(names_and_value).collect();
        format!("\n{heading}\n{}\n", wrapped(&names_and_value.join("; ")))
    };
    [
        BEGIN.to_owned(),
        part("Options that are taken:", |effect| matches!(effect, Effect::Taken(_))),
        part("Options that change nothing of a static image:", |effect| matches!(effect, Effect::Ignored)),
        part("Options without effect here, which is said:", |effect| matches!(effect, Effect::WarnOnly(_))),
        part("Options that are given to LDI_FALLBACK, or refused:", |effect| matches!(effect, Effect::FallBack(_))),
        END.to_owned(),
    ]
    .concat()
}

/// An option's names with their dashes, and its value.
fn names_and_value(row: &OptionRow) -> String {
    let value = match row.argument {
        Argument::Absent => "",
        Argument::Needed => " VALUE",
        Argument::Optional => "[=VALUE]",
    };
    let names: Vec<String> = row.names().map(dashed).collect();
    names.join(", ") + value
}

/// The words of a text in lines of a width.
fn wrapped(text: &str) -> String {
    let mut lines = vec![INDENT.to_owned()];
    for word in text.split(' ') {
        match lines.last_mut() {
            Some(line) if line.len() == INDENT.len() => line.push_str(word),
            Some(line) if line.len() + 1 + word.len() <= WIDTH => {
                line.push(' ');
                line.push_str(word);
            }
            _ => lines.push(format!("{INDENT}{word}")),
        }
    }
    lines.join("\n")
}

#[cfg(test)]
mod tests {
    use super::*;

    #[test]
    fn each_option_is_in_it_by_its_names() {
        let text = help().replace('\n', " ");
        for row in OPTIONS {
            assert!(row.names().all(|name| text.contains(&dashed(name))), "{}", row.names);
        }
    }

    #[test]
    fn lines_are_not_too_long() {
        assert!(help().lines().all(|line| line.len() <= 120));
    }

    #[test]
    fn builds_find_the_formats_that_they_look_for() {
        assert!(help().ends_with("supported targets: elf64-x86-64\nld.ldi: supported emulations: elf_x86_64\n"));
    }
}
