//! The start of a text that has to be short, for the recorder: a value, a panic, or the name of a
//! file.

/// Returns the start of a text that has this many bytes at most, and ends with a whole character.
pub(crate) fn start_of(text: &str, most: usize) -> &str {
    let mut end = text.len().min(most);
    while !text.is_char_boundary(end) {
        end -= 1;
    }
    &text[..end]
}

/// Returns a text, or of one that has more bytes than this its start, and how many it has.
pub(crate) fn at_most(text: &str, most: usize) -> String {
    if text.len() > most {
        format!("{}… ({} bytes)", start_of(text, most), text.len())
    } else {
        text.to_string()
    }
}

#[cfg(test)]
mod tests {
    use super::*;

    #[test]
    fn a_text_that_is_cut_says_how_long_it_was() {
        assert_eq!(at_most("price: 101", 5), "price… (10 bytes)");
        assert_eq!(at_most("é🦀", 0), "… (6 bytes)");
        assert_eq!(at_most("é🦀", 6), "é🦀");
    }

    #[test]
    fn a_text_is_cut_between_characters() {
        let wanted = ["", "", "é", "é", "é", "é", "é🦀", "é🦀"];
        let starts = (0..8).map(|most| start_of("é🦀", most));
        assert!(starts.eq(wanted));
    }
}
