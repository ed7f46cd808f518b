//! Traces as text that people read: bytes as pairs of hex digits, with comments from `#` to the end of the line.

/// The bytes that the text stands for, or what in it is neither a byte nor a comment.
pub fn parse(text: &str) -> Result<Vec<u8>, String> {
    let mut bytes = Vec::new();
    for (number, line) in text.lines().enumerate() {
        let code = line.split('#').next().unwrap_or("");
        for word in code.split_whitespace() {
            let byte = byte(word).ok_or_else(|| format!("line {}: {word:?}", number + 1))?;
            bytes.push(byte);
        }
    }
    Ok(bytes)
}

/// A byte in two hex digits, and nothing else.
fn byte(word: &str) -> Option<u8> {
    let digits = word.len() == 2 && word.bytes().all(|byte| byte.is_ascii_hexdigit());
    digits.then(|| u8::from_str_radix(word, 16).ok()).flatten()
}

/// Bytes as hex, with a space between them.
pub fn print(bytes: &[u8]) -> String {
    let words: Vec<String> = bytes.iter().map(|byte| format!("{byte:02X}")).collect();
    words.join(" ")
}

#[cfg(test)]
mod tests {
    use super::*;

    #[test]
    fn bytes_and_comments() {
        let text = "# a trace\n00 7f\tFF # 33\n\n  a0\n";
        assert_eq!(parse(text), Ok(vec![0x00, 0x7F, 0xFF, 0xA0]));
        assert_eq!(parse(""), Ok(vec![]));
        assert_eq!(print(&[0x00, 0xAF]), "00 AF");
    }

    #[test]
    fn anything_else_is_an_error() {
        for text in ["0", "000", "0g", "+1", "0x1", "00,01"] {
            assert!(parse(text).is_err(), "{text}");
        }
        assert_eq!(parse("00\n01 zz"), Err("line 2: \"zz\"".to_string()));
    }
}
