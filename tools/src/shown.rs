//! Words of a text, of a command line or of a file's name as messages show them: a control byte among them could move the
//! cursor of a terminal or colour what follows, so it is shown by its number.

/// Longer words are cut off in a message.
const LONGEST: usize = 60;

/// The characters that can be printed as they are, the others by their numbers; of a long word the beginning.
pub fn shown(word: &str) -> String {
    let mut text: String = word.chars().take(LONGEST).map(character).collect();
    if word.chars().nth(LONGEST).is_some() {
        text += "..";
    }
    text
}

/// One character: `\u{1b}` for the one that begins a terminal's commands.
pub fn character(c: char) -> String {
    match c {
        // They stand for nothing but themselves.
        '\'' | '"' | '\\' => c.to_string(),
        _ => c.escape_debug().to_string(),
    }
}

#[cfg(test)]
mod tests {
    use super::*;

    #[test]
    fn nothing_that_is_shown_moves_the_cursor() {
        assert_eq!(shown("Zoë's \"bil\""), "Zoë's \"bil\"");
        assert_eq!(shown("\u{1b}[2Jbil\r"), "\\u{1b}[2Jbil\\r");
        // The last one turns the direction of writing.
        assert_eq!(shown("\0\u{9b}\u{202e}"), "\\0\\u{9b}\\u{202e}");
        for c in (0..=0x9f).filter_map(char::from_u32) {
            assert!(!character(c).chars().any(char::is_control), "{c:?}");
        }
    }

    #[test]
    fn a_long_word_is_cut_off() {
        assert_eq!(shown(&"é".repeat(60)), "é".repeat(60));
        assert_eq!(shown(&"é".repeat(61)), "é".repeat(60) + "..");
    }
}
