//! `@FILE` in a command line: the words of a file, as GNU's tools read them (libiberty, `expandargv`).

use bstr::{BStr, BString, ByteSlice};
use std::fs::{File, OpenOptions};
use std::io::{self, Read};
use std::os::unix::fs::OpenOptionsExt;
use std::path::{Path, PathBuf};

/// How deep files of words may name others.
const MAX_DEPTH: usize = 100;
/// The most words, with those of files: a file that names itself twice would double them a hundred times.
const MAX_COUNT: usize = 1 << 22;

/// A command line with the words of each `@FILE` in its place.
#[derive(Clone, PartialEq, Eq, Debug, Default)]
pub struct Words {
    /// The words.
    pub words: Vec<BString>,
    /// The files that were read for them.
    pub files: Vec<PathBuf>,
}

/// Puts the words of each `@FILE` in its place; a file that cannot be read leaves the word as it is.
pub fn expand_words<W: AsRef<[u8]>>(words: impl IntoIterator<Item = W>) -> Words {
    let mut found = Words::default();
    for word in words {
        expand(word.as_ref().as_bstr(), 0, &mut found);
    }
    found
}

fn expand(word: &BStr, depth: usize, found: &mut Words) {
    let name = word.strip_prefix(b"@").filter(|_| depth < MAX_DEPTH && found.words.len() < MAX_COUNT);
    let path = name.and_then(|name| name.to_path().ok());
    match path.and_then(|path| Some((path, read(path).ok()?))) {
        Some((path, text)) => {
            found.files.push(path.to_owned());
            split_words(&text).iter().for_each(|word| expand(word.as_bstr(), depth + 1, found));
        }
        None => found.words.push(word.to_owned()),
    }
}

/// The bytes of a file. A pipe is waited for if somebody has it open to write it, and is empty else.
fn read(path: &Path) -> io::Result<Vec<u8>> {
    let flags = rustix::fs::OFlags::NONBLOCK.bits() as i32;
    let mut file: File = OpenOptions::new().read(true).custom_flags(flags).open(path)?;
    let status = rustix::fs::fcntl_getfl(&file)?;
    rustix::fs::fcntl_setfl(&file, status - rustix::fs::OFlags::NONBLOCK)?;
    let mut text = Vec::new();
    file.read_to_end(&mut text)?;
    Ok(text)
}

/// The words of a text: separated by white space, with `'..'`, `".."` and a backslash before any character.
pub fn split_words(text: &[u8]) -> Vec<BString> {
    let mut words = Vec::new();
    let mut word: Option<BString> = None;
    let mut quote = None;
    let mut bytes = text.iter().copied().peekable();
    while let Some(byte) = bytes.next() {
        let escaped = if byte == b'\\' { bytes.next() } else { None };
        match (escaped, quote) {
            (Some(plain), _) => word.get_or_insert_with(BString::default).push(plain),
            (None, Some(end)) if byte == end => quote = None,
            (None, Some(_)) => word.get_or_insert_with(BString::default).push(byte),
            (None, None) => match byte {
                b'\'' | b'"' => {
                    quote = Some(byte);
                    word.get_or_insert_with(BString::default);
                }
                b' ' | b'\t' | b'\n' | b'\r' | 0x0C | 0x0B => words.extend(word.take()),
                _ => word.get_or_insert_with(BString::default).push(byte),
            },
        }
    }
    words.extend(word);
    words
}

#[cfg(test)]
mod tests {
    use super::*;

    fn split(text: &str) -> Vec<String> {
        split_words(text.as_bytes()).iter().map(|word| word.to_string()).collect()
    }

    fn folder(name: &str) -> PathBuf {
        let folder = std::env::temp_dir().join(format!("ldi-front-words-{}-{name}", std::process::id()));
        std::fs::create_dir_all(&folder).unwrap();
        folder
    }

    #[test]
    fn words_are_separated_by_white_space() {
        assert_eq!(split("a  b\n\tc\r\x0b\x0cd"), ["a", "b", "c", "d"]);
        assert!(split("").is_empty());
    }

    #[test]
    fn quotes_hold_a_word_together() {
        assert_eq!(split("'c d' \"e 'f\" i'j'k"), ["c d", "e 'f", "ijk"]);
        assert_eq!(split("''"), [""]);
        assert_eq!(split("'a b"), ["a b"]);
    }

    #[test]
    fn a_backslash_stands_before_any_character() {
        assert_eq!(split(r#"g\ h "a\"b" 'c\'d' \\"#), ["g h", "a\"b", "c'd", "\\"]);
        assert_eq!(split("a\\"), ["a\\"]);
    }

    #[test]
    fn files_name_files_and_missing_ones_stay_words() {
        let folder = folder("nested");
        let (first, second) = (folder.join("first"), folder.join("second"));
        std::fs::write(&first, format!("a.o @{}\n", second.display())).unwrap();
        std::fs::write(&second, "b.o -o 'my image'").unwrap();
        let found = expand_words(["-M".to_owned(), format!("@{}", first.display()), "@none".to_owned()]);
        assert_eq!(found.words, ["-M", "a.o", "b.o", "-o", "my image", "@none"]);
        assert_eq!(found.files, [first, second]);
        std::fs::remove_dir_all(folder).unwrap();
    }

    #[test]
    fn a_file_that_names_itself_ends() {
        let folder = folder("itself");
        let file = folder.join("words");
        let word = format!("@{}", file.display());
        std::fs::write(&file, &word).unwrap();
        assert_eq!(expand_words([&word]).words, [word.as_str()]);
        std::fs::remove_dir_all(folder).unwrap();
    }

    #[test]
    fn a_pipe_without_a_writer_is_empty() {
        let folder = folder("pipe");
        let pipe = folder.join("pipe");
        let made = std::process::Command::new("mkfifo").arg(&pipe).status();
        if made.map_or(false, |status| status.success()) {
            assert!(expand_words([format!("@{}", pipe.display())]).words.is_empty());
        }
        std::fs::remove_dir_all(folder).unwrap();
    }
}
