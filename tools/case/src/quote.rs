//! Quotations in messages.

/// The most characters that a message quotes.
const MOST: usize = 40;

/// A text as a message quotes it.
pub fn quoted(text: &str) -> String {
    format!("`{}`", plain(text))
}

/// A text cut short where it is long, with no character that a terminal would act upon.
pub fn plain(text: &str) -> String {
    let mut shown = String::new();
    let mut left = MOST;
    for character in text.chars() {
        let piece = escaped(character);
        let length = piece.chars().count();
        if length > left {
            return shown + "..";
        }
        left -= length;
        shown += &piece;
    }
    shown
}

/// A character, or its escape if it is not printed.
fn escaped(character: char) -> String {
    match character {
        ' '..='~' => character.to_string(),
        _ => character.escape_debug().to_string(),
    }
}
