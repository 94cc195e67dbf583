use super::*;
use std::path::Path;

fn read(words: &[&str]) -> Command {
    read_words(words).unwrap_or_else(|refused| panic!("{words:?}: {refused}"))
}

fn read_words(words: &[&str]) -> Result<Command, WordsRefused> {
    read_command(&words.iter().map(|word| BString::from(*word)).collect::<Vec<_>>())
}

#[test]
fn long_names_have_one_dash_or_two_and_values_in_three_places() {
    for words in [&["-Map=m"][..], &["-Map", "m"], &["--Map=m"], &["--Map", "m"]] {
        assert_eq!(read(words).map_file.as_deref(), Some(Path::new("m")), "{words:?}");
    }
    for words in [&["-emain"][..], &["-e", "main"], &["--entry=main"], &["-entry=main"], &["--ent=main"]] {
        assert_eq!(read(words).entry, Some("main".into()), "{words:?}");
    }
}

#[test]
fn a_script_has_its_place_among_the_inputs() {
    for words in [&["-Ta.ld"][..], &["-T", "a.ld"], &["--script=a.ld"], &["-script", "a.ld"]] {
        let command = read(words);
        assert_eq!(command.scripts, [Path::new("a.ld")]);
        assert_eq!(command.inputs, [Input::Script("a.ld".into(), InputFlags::default())]);
    }
}

#[test]
fn a_default_script_is_read_last_and_not_beside_another() {
    let command = read(&["-dT", "a.ld", "a.o"]);
    assert_eq!(command.default_script.as_deref(), Some(Path::new("a.ld")));
    assert_eq!(command.inputs.last(), Some(&Input::Script("a.ld".into(), InputFlags::default())));
    assert_eq!(read(&["-dT", "a.ld", "-T", "b.ld"]).inputs.len(), 1);
}

#[test]
fn names_that_begin_with_o_have_two_dashes() {
    for words in [&["-oformat"][..], &["-o", "format"], &["--output=format"]] {
        let command = read(words);
        assert_eq!((command.output.as_path(), command.has_output), (Path::new("format"), true), "{words:?}");
    }
    assert_eq!(read(&["--oformat", "binary"]).output_format, Some(OutputFormat::Binary));
    assert_eq!(read(&[]).output, Path::new("a.out"));
}

#[test]
fn addresses_are_hexadecimal() {
    let command = read(&["-Ttext=0x7c00", "-Tdata", "8000", "--section-start=.x=10", "--section-start", ".y=0x20"]);
    let starts = |found: &IndexMap<BString, u64>| -> Vec<(String, u64)> {
        found.iter().map(|(name, at)| (name.to_string(), *at)).collect()
    };
    assert_eq!(starts(&command.segment_starts), [("text".into(), 0x7C00), ("data".into(), 0x8000)]);
    assert_eq!(starts(&command.section_starts), [(".x".into(), 0x10), (".y".into(), 0x20)]);
}

#[test]
fn the_address_of_a_segment_is_for_segment_start() {
    let command = read(&["-Ttext-segment=0x200000", "-Trodata-segment", "300000", "-Tbss=1"]);
    let starts: Vec<_> = command.segment_starts.iter().map(|(name, at)| (name.to_string(), *at)).collect();
    assert_eq!(starts, [("text-segment".into(), 0x20_0000), ("rodata-segment".into(), 0x30_0000), ("bss".into(), 1)]);
    assert!(command.section_starts.is_empty());
}

#[test]
fn letters_without_values_stand_together() {
    let command = read(&["-Mt"]);
    assert!(command.prints_map && command.traces);
}

#[test]
fn the_last_of_two_opposites_holds() {
    assert!(read(&["--gc-sections", "--print-gc-sections"]).prints_collected);
    assert!(!read(&["--gc-sections", "--no-gc-sections"]).collects_sections);
    assert!(!read(&["-z", "start-stop-gc", "-znostart-stop-gc"]).collects_start_stop);
}

#[test]
fn inputs_stand_in_order_with_the_flags_that_hold_for_each() {
    let command = read(&[
        "a.o",
        "--whole-archive",
        "b.a",
        "--push-state",
        "--no-whole-archive",
        "-static",
        "-lc",
        "--pop-state",
        "--library=:d.a",
        "-(",
        "e.a",
        "-)",
        "-Tx.ld",
    ]);
    let plain = InputFlags::default();
    let whole = InputFlags { is_whole_archive: true, ..plain };
    let is_static = InputFlags { is_static: true, ..plain };
    assert_eq!(
        command.inputs,
        [
            Input::File("a.o".into(), plain),
            Input::File("b.a".into(), whole),
            Input::Library("c".into(), is_static),
            Input::Library(":d.a".into(), whole),
            Input::StartGroup,
            Input::File("e.a".into(), whole),
            Input::EndGroup,
            Input::Script("x.ld".into(), whole),
        ]
    );
}

#[test]
fn a_format_holds_for_the_files_after_it() {
    let command = read(&["-b", "binary", "a", "--format=default", "b.o"]);
    let formats: Vec<_> = command
        .inputs
        .iter()
        .map(|input| if let Input::File(_, flags) = input { flags.format } else { Format::Default })
        .collect();
    assert_eq!(formats, [Format::Binary, Format::Default]);
    assert_eq!(read(&["-b", "pe-x86-64"]).impossible, ["--format pe-x86-64: unsupported format"]);
}

#[test]
fn what_gcc_passes_by_itself_needs_no_other_linker() {
    let command = read(&[
        "-plugin",
        "/usr/lib/liblto_plugin.so",
        "-plugin-opt=/usr/lib/lto-wrapper",
        "-plugin-opt=-fresolution=x",
        "--build-id",
        "--eh-frame-hdr",
        "-m",
        "elf_x86_64",
        "--hash-style=gnu",
        "--as-needed",
        "-dynamic-linker",
        "/lib64/ld-linux-x86-64.so.2",
        "-static",
        "-z",
        "relro",
        "-znow",
        "-z",
        "noexecstack",
        "-L.",
        "a.o",
    ]);
    assert!(command.impossible.is_empty());
    assert!(command.notes.is_empty());
    assert_eq!(command.build_id, Some(BuildId::Sha1));
    assert_eq!(command.inputs.len(), 1);
    assert_eq!(command.folders, [Path::new(".")]);
}

#[test]
fn options_without_effect_are_said_once() {
    let command = read(&["-y", "a", "-y", "b", "-z", "nosectionheader", "-zodd", "-z", "odd"]);
    assert_eq!(command.notes.len(), 3);
    assert!(read(&["-z", "max-page-size=4096"]).notes.is_empty());
}

#[test]
fn an_option_is_spoken_of_by_the_name_that_the_words_have() {
    assert!(read(&["--trace-symbol=a"]).notes.concat().starts_with("--trace-symbol: "));
    assert_eq!(read(&["-relocatable"]).impossible, ["--relocatable: relocatable output"]);
    assert_eq!(read(&["--reloc"]).impossible, ["-r: relocatable output"]);
}

#[test]
fn what_gnu_ld_is_to_let_pass_is_kept() {
    let words = ["-zmuldefs", "--unresolved-symbols=ignore-all", "--noinhibit-exec", "--no-check-sections"];
    let command = read(&words);
    let expected =
        [Leniency::MultipleDefinitions, Leniency::UndefinedNames, Leniency::NoInhibitExec, Leniency::NoCheckSections];
    assert!(command.lenient.iter().eq(&expected) && command.notes.is_empty());
    assert!(read(&["-z", "noreloc-overflow"]).lenient.contains(&Leniency::RelocationOverflow));
}

#[test]
fn orphans_are_kept_as_they_are_written() {
    for (word, orphans) in [("place", Orphans::Place), ("warn", Orphans::Warn), ("error", Orphans::Error)] {
        assert_eq!(read(&[&format!("--orphan-handling={word}")]).orphans, Some(orphans));
    }
}

#[test]
fn the_last_build_id_holds() {
    assert_eq!(read(&["--build-id", "--build-id=none"]).build_id, None);
    assert_eq!(read(&["--build-id=sha1", "--no-build-id"]).build_id, None);
    assert_eq!(read(&["--build-id=none", "--build-id=md5"]).build_id, Some(BuildId::Md5));
    assert!(read(&["--build-id=odd", "--build-id=0x12"]).notes.is_empty());
    assert_eq!(read(&["--build-id=fast"]).notes, ["warning: unrecognized --build-id style ignored"]);
}

#[test]
fn what_only_another_linker_does_is_said_with_its_reason() {
    for row in OPTIONS {
        if let Effect::FallBack(reason) = row.effect {
            let mut words = vec![BString::from(row.spelling())];
            words.extend((row.argument == Argument::Needed).then(|| BString::from("x")));
            let command = read_command(&words).unwrap();
            assert_eq!(command.impossible, [format!("{}: {reason}", row.spelling())]);
        }
    }
    assert_eq!(read(&["-m", "elf_i386"]).impossible, ["-m elf_i386: unsupported machine"]);
    assert_eq!(read(&["--oformat=pe-x86-64"]).impossible, ["--oformat pe-x86-64: unsupported format"]);
}

#[test]
fn what_gnu_ld_refuses_is_refused() {
    for words in [
        &["--no-such-option"][..],
        &["-o"],
        &["--start-group", "a.o"],
        &["--start-group", "--start-group"],
        &["--end-group"],
        &["--pop-state"],
        &["-k"],
        &["--orphan-handling=no"],
        &["-Ttext=x"],
        &["--section-start=.x"],
        &["--gc-sections=1"],
        &["--warn-"],
        &["--defsym", "a"],
        &["-z", "max-page-size=x"],
        &["-z", "max-page-size=3"],
        &["-z", "common-page-size=0"],
        &["-alias"],
    ] {
        assert!(read_words(words).is_err(), "{words:?}");
    }
}

/// lexsup.c, `parse_args`: what it warns of while it reads the words counts by the words before.
#[test]
fn a_word_that_is_not_known_may_be_a_fault() {
    assert!(read(&["--fatal-warnings", "-z", "foo", "--no-fatal-warnings"]).impossible[0].starts_with("-z foo: "));
    for words in [&["-z", "foo", "--fatal-warnings"][..], &["--fatal-warnings", "-z", "now"]] {
        assert!(read(words).impossible.is_empty(), "{words:?}");
    }
    let command = read(&["-w", "--no-warn-rwx-segments", "--no-warn-execstack", "--warn-execstack"]);
    assert!(command.unwarned.into_iter().eq([Warning::Anything, Warning::Segments]));
}

#[test]
fn every_option_can_be_read() {
    for row in OPTIONS.iter().filter(|row| matches!(row.effect, Effect::Taken(_))) {
        let value = match row.names().next() {
            Some("end-group" | "pop-state" | "start-group") => continue,
            Some("orphan-handling") => "error",
            Some("a") => "archive",
            Some("section-start" | "defsym") => ".x=0",
            Some("sort-section") => "name",
            Some("Map-format") => "ldi",
            _ => "10",
        };
        let mut words = vec![BString::from(row.spelling())];
        words.extend((row.argument == Argument::Needed).then(|| BString::from(value)));
        read_command(&words).unwrap();
    }
}

#[test]
fn names_are_unique() {
    let mut names: Vec<&str> = OPTIONS.iter().flat_map(OptionRow::names).collect();
    let count = names.len();
    names.sort_unstable();
    names.dedup();
    assert_eq!(names.len(), count);
}

#[test]
fn a_name_that_is_cut_short_is_one_option() {
    assert!(read(&["--print-mem"]).prints_memory_usage);
    let refused = read_words(&["--print-m"]).unwrap_err();
    assert_eq!(refused.0, "--print-m is short for --print-map-discarded and --print-memory-usage and -M");
}

#[test]
fn a_first_equals_sign_or_sysroot_stands_for_the_sysroot() {
    let command = read(&["-L=/a", "-L", "$SYSROOT/b", "-Lc=d", "--sysroot=/root"]);
    assert_eq!(command.folders, [Path::new("/root/a"), Path::new("/root/b"), Path::new("c=d")]);
}

#[test]
fn folders_before_the_first_script_are_counted() {
    assert_eq!(read(&["-La", "-Tx", "-Lb", "-Ty"]).folders_before_script, Some(1));
    assert_eq!(read(&["-La"]).folders_before_script, None);
}

#[test]
fn a_defsym_stands_after_the_scripts_before_it() {
    let command = read(&["--defsym", "a=1", "-Tx", "--defsym=b = c + 2"]);
    let found: Vec<_> = command.defsyms.iter().map(|one| (one.scripts_before, one.name.to_string())).collect();
    assert_eq!(found, [(0, "a".into()), (1, "b".into())]);
    assert_eq!(command.defsyms[1].value, "c + 2");
}

#[test]
fn numbers_are_those_of_c() {
    assert_eq!(read(&["-z", "max-page-size=0x200000"]).page_size, Some(0x20_0000));
    assert_eq!(read(&["-z", "max-page-size=010000"]).page_size, Some(4096));
    assert_eq!(read(&["-z", "common-page-size=4096"]).common_page_size, Some(4096));
    assert_eq!((number(b"0x10"), number(b"10"), number(b"010"), number(b"0")), (Some(16), Some(10), Some(8), Some(0)));
    assert_eq!((number(b""), number(b"0x"), number(b"+1"), number(b"1k")), (None, None, None, None));
}

#[test]
fn no_fallback_and_the_server_are_set() {
    let command = read(&["--no-fallback", "--no-server"]);
    assert!(command.is_without_fallback && command.is_without_server);
    assert_eq!(read(&["--server-stop"]).server_request, Some(ServerRequest::Stop));
}

#[test]
fn a_library_or_a_file_is_an_input_and_a_script_is_none() {
    assert!(!read(&["-Tx"]).has_inputs());
    assert!(read(&["-lx"]).has_inputs());
}

/// Each option of GNU ld's own help is in the table, with a value if it has one there; skipped if it is missing.
#[test]
fn every_option_of_gnu_lds_help_is_known() {
    let text = match std::process::Command::new("ld.bfd").arg("--help").output() {
        Ok(done) => String::from_utf8_lossy(&done.stdout).into_owned(),
        Err(_) => return,
    };
    let of_elf = text.split("\ni386pep:").next().unwrap_or_default();
    let mut count = 0;
    for line in of_elf.lines().filter(|line| line.starts_with("  -") && !line.starts_with("  -z ")) {
        let written = if line.as_bytes().get(29) == Some(&b' ') { &line[..30] } else { line };
        let options = written.trim().split("  ").next().unwrap_or_default().trim_end_matches(',');
        for part in options.split(", ") {
            let part = part.replace("[=", " ").replace('=', " ");
            let (word, value) = part.split_once(' ').unwrap_or((&part, ""));
            let found = find_option(word.into()).unwrap_or_else(|refused| panic!("{part}: {refused}"));
            assert_eq!(found.rows.len(), 1, "{part}");
            assert!(value.is_empty() || found.rows[0].argument != Argument::Absent, "{part}");
            count += 1;
        }
    }
    assert!(count > 150);
    for line in of_elf.lines().filter_map(|line| line.strip_prefix("  -z ")) {
        let word = line.split(|c: char| !c.is_ascii_alphanumeric() && c != '-').next().unwrap_or_default();
        let is_known = find_keyword(word.as_bytes()).is_some() || word.is_empty() || word.starts_with("x86-64-");
        assert!(is_known || word.chars().all(char::is_uppercase), "-z {word}");
    }
}

/// Each option stands in the manual under the heading of its effect.
#[test]
fn the_manual_has_each_option_under_its_effect() {
    let manual = include_str!("../../../docs/makefiles.md");
    type Belongs = fn(&Effect) -> bool;
    let headings: [(&str, Belongs); 4] = [
        ("Taken", |effect| matches!(effect, Effect::Taken(_))),
        ("Ignored", |effect| matches!(effect, Effect::Ignored)),
        ("Said", |effect| matches!(effect, Effect::WarnOnly(_))),
        ("Handed over", |effect| matches!(effect, Effect::FallBack(_))),
    ];
    for (heading, belongs) in headings {
        let after = manual.split(&format!("### {heading}\n")).nth(1).expect(heading);
        let part = after.split("\n##").next().unwrap_or_default();
        let spans = part.split('`').skip(1).step_by(2).filter(|span| span.starts_with('-'));
        let written: Vec<&str> =
            spans.filter_map(|span| span.split(|c: char| c.is_whitespace() || "[=".contains(c)).next()).collect();
        for row in OPTIONS.iter().filter(|row| belongs(&row.effect)) {
            assert!(written.contains(&row.spelling().as_str()), "{heading} has no {}", row.spelling());
        }
        for word in written.into_iter().filter(|word| !["-", "-z"].contains(word)) {
            let rows = find_option(word.into()).map(|found| found.rows).unwrap_or_default();
            let is_fine = !rows.is_empty() && rows.iter().all(|row| belongs(&row.effect)) || word == "--no-warn-";
            assert!(is_fine, "{heading} has {word}");
        }
    }
}
