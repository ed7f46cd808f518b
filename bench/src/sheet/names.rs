//! Names of sources in a typed table: behind a source's three numbers, in double quotes.

use crate::model::aic::SOURCES;
use crate::stack::{text, Fault, Table};
use crate::trace::LONGEST;

/// The name of each source, empty where it has none.
pub type Names = [String; SOURCES];

/// The longest name, in bytes.
pub const LONGEST_SOURCE_NAME: usize = 24;

/// A table within its limits and its names. Names that may stand where they do are taken out of the text; any other
/// quote is no number.
pub fn named_table(typed: &[u8]) -> Result<(Table, Names), Fault> {
    let mut names = Names::default();
    let mut bare = typed.to_vec();
    let (mut at, mut words) = (0, 0);
    while at < bare.len().min(LONGEST + 1) {
        let rest = &typed[at..];
        let length = match rest[0] {
            b' ' | b'\t' | b'\r' | b'\n' => 1,
            b'#' => rest
                .iter()
                .position(|&byte| byte == b'\n')
                .unwrap_or(rest.len()),
            first => match (first, words) {
                (b'"', 3..=96)
                    if words % 3 == 0
                        && names[words / 3 - 1].is_empty()
                        && name(rest).is_some() =>
                {
                    let name = name(rest).expect("it is one");
                    names[words / 3 - 1] = name.to_owned();
                    bare[at..at + name.len() + 2].fill(b' ');
                    name.len() + 2
                }
                _ => {
                    // Any other quote is no number, to a reader that takes names too.
                    bare[at] = if first == b'"' { b'?' } else { first };
                    words += 1;
                    rest.iter()
                        .position(|byte| ends_word(*byte))
                        .unwrap_or(rest.len())
                }
            },
        };
        at += length;
    }
    let table = text::table(&bare)?;
    table.bytes()?;
    Ok((table, names))
}

fn ends_word(byte: u8) -> bool {
    b" \t\r\n#".contains(&byte)
}

/// The name that a text begins with, if it does and something parts it from what follows.
fn name(text: &[u8]) -> Option<&str> {
    let inner = text.strip_prefix(b"\"")?;
    let length = inner.iter().position(|&byte| byte == b'"')?;
    let plain = |byte: &u8| (b' '..=b'~').contains(byte) && !b"<>&".contains(byte);
    let fits = (1..=LONGEST_SOURCE_NAME).contains(&length) && inner[..length].iter().all(plain);
    let parted = inner.get(length + 1).is_none_or(|&byte| ends_word(byte));
    std::str::from_utf8(&inner[..length])
        .ok()
        .filter(|_| fits && parted)
}
