//! Words as a shell takes them.

use std::ffi::OsStr;
use std::os::unix::ffi::OsStrExt;

/// What stands for itself in a shell, beside letters and digits.
const PLAIN: &[u8] = b"_-./+,:@%";

/// A word quoted where a shell needs it. What could give a terminal orders, or
/// is no text, is made by printf, so that it can be shown and copied; the word
/// that a shell then has is the same, byte for byte.
pub fn quoted(word: &OsStr) -> String {
    let bytes = word.as_bytes();
    let plain = |byte: &u8| byte.is_ascii_alphanumeric() || PLAIN.contains(byte);
    if !bytes.is_empty() && bytes.iter().all(plain) {
        return String::from_utf8_lossy(bytes).into_owned();
    }
    let mut text = String::new();
    let mut within = false;
    for chunk in bytes.utf8_chunks() {
        for letter in chunk.valid().chars() {
            let mut bytes = [0; 4];
            match letter {
                '\'' => bare(&mut text, &mut within, "\\'"),
                // A shell takes line ends away that printf gives last.
                letter if letter == '\n' || !letter.is_control() => {
                    if !within {
                        text.push('\'');
                        within = true;
                    }
                    text.push(letter);
                }
                letter => {
                    let encoded = letter.encode_utf8(&mut bytes);
                    bare(&mut text, &mut within, &printed(encoded.as_bytes()));
                }
            }
        }
        if !chunk.invalid().is_empty() {
            bare(&mut text, &mut within, &printed(chunk.invalid()));
        }
    }
    bare(&mut text, &mut within, "");
    if text.is_empty() {
        text.push_str("''");
    }
    text
}

/// Adds what stands outside of quotes.
fn bare(text: &mut String, within: &mut bool, what: &str) {
    if std::mem::take(within) {
        text.push('\'');
    }
    text.push_str(what);
}

/// Bytes as printf makes them.
fn printed(bytes: &[u8]) -> String {
    let octal: String = bytes.iter().map(|byte| format!("\\{byte:03o}")).collect();
    format!("\"$(printf '{octal}')\"")
}

#[cfg(test)]
mod tests {
    use super::*;
    use std::process::Command;

    #[test]
    fn words() {
        for (word, text) in [
            (&b""[..], "''"),
            (b"parts.tar", "parts.tar"),
            (b"-n", "-n"),
            (b"a=b", "'a=b'"),
            (b"a b", "'a b'"),
            (b"it's", "'it'\\''s'"),
            (b"'", "\\'"),
            (b"$HOME`x`\"\\!*?~#;&|<>", "'$HOME`x`\"\\!*?~#;&|<>'"),
            ("Größe".as_bytes(), "'Größe'"),
            (b"a\nb\n", "'a\nb\n'"),
            (b"a\x1b[2J", "'a'\"$(printf '\\033')\"'[2J'"),
            (b"\xFF\xFE", "\"$(printf '\\377')\"\"$(printf '\\376')\""),
        ] {
            assert_eq!(quoted(OsStr::from_bytes(word)), text);
        }
    }

    /// What a shell makes of it.
    #[test]
    fn a_shell_has_the_same_words() {
        let mut every: Vec<u8> = (1..=255).collect();
        every.extend("\u{85}\u{9b}é\n\n".as_bytes());
        for word in [&every[..], b"", b"-e", b"a\\nb\\", b"%s%", b"\n"] {
            let line = format!("printf %s {}", quoted(OsStr::from_bytes(word)));
            let shell = Command::new("sh").args(["-c", &line]).output();
            assert!(shell.expect("a shell").stdout == word, "{line}");
        }
    }
}
