//! The limits of the profile on a run of signs (docs/limits.md, 'Scripts').

use super::rewrites::Rendered;
use crate::profile::limits::MAX_SIGNS;
use crate::profile::text::{pieces, Piece};

/// The signs of a run after which a `;` parts statements, so that one more statement stays below the limit.
const MAX_RUN_SIGNS: usize = MAX_SIGNS - 24;
/// The statements after which a `;` may stand, that need none.
const PARTED: [&[u8]; 3] = [b"ASSERT", b"PROVIDE", b"ENTRY"];

/// The text with a `;` between statements of long runs.
pub(super) fn split_runs(rendered: Rendered) -> Rendered {
    let mut places = Vec::new();
    let (mut signs, mut level) = (0, 0_usize);
    let (mut word, mut begins): (&[u8], &[u8]) = (b"", b"");
    for (start, end, piece) in pieces(&rendered.text) {
        match piece {
            Piece::Word => word = rendered.text.get(start..end).unwrap_or_default(),
            Piece::Other(b';' | b'{' | b'}') => signs = 0,
            Piece::Other(b'(') => {
                begins = if level == 0 { word } else { begins };
                level += 1;
                signs += 1;
            }
            Piece::Other(b')') => {
                level = level.saturating_sub(1);
                if level == 0 && signs > MAX_RUN_SIGNS && PARTED.contains(&begins) {
                    places.push(end);
                    signs = 0;
                }
            }
            Piece::Other(byte) if b"!-~*/%+<>=&|?".contains(&byte) => signs += 1,
            Piece::Other(_) | Piece::Comment | Piece::Text => {}
        }
    }
    let mut text = Vec::with_capacity(rendered.text.len() + places.len());
    let mut done = 0;
    for at in places {
        text.extend_from_slice(rendered.text.get(done..at).unwrap_or_default());
        text.push(b';');
        done = at;
    }
    text.extend_from_slice(rendered.text.get(done..).unwrap_or_default());
    Rendered { text, origins: rendered.origins }
}

#[cfg(test)]
mod tests {
    use super::*;

    #[test]
    fn long_runs_are_parted() {
        let one = "ASSERT((a > 1) && (b != 2), \"m\") ";
        let text = one.repeat(20).into_bytes();
        let done = split_runs(Rendered { text, origins: vec![0] });
        let longest = done.text.split(|byte| *byte == b';').map(|run| run.iter().filter(|byte| **byte == b'(').count());
        assert!(longest.max().unwrap() < 30);
        let short = split_runs(Rendered { text: one.into(), origins: vec![0] });
        assert_eq!(short.text, one.as_bytes());
        let head = ".a : AT((a + 1) * 2) { }".repeat(9).into_bytes();
        assert_eq!(split_runs(Rendered { text: head.clone(), origins: vec![0] }).text, head);
    }
}
