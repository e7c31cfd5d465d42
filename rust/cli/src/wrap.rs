//! Words put into lines.

/// The usual width, so that a line with its label fits 80 columns.
pub const WIDTH: usize = 66;

/// As many words to a line as its width takes; one that is wider stands alone.
pub fn lines(words: impl IntoIterator<Item = String>, width: usize) -> Vec<String> {
    let mut lines: Vec<String> = Vec::new();
    for word in words {
        match lines.last_mut() {
            Some(line) if line.len() + 1 + word.len() <= width => {
                line.push(' ');
                line.push_str(&word);
            }
            _ => lines.push(word),
        }
    }
    lines
}

#[cfg(test)]
mod tests {
    use super::*;

    fn broken(text: &str, width: usize) -> Vec<String> {
        lines(text.split(' ').map(String::from), width)
    }

    #[test]
    fn lines_are_as_wide_as_they_may_be() {
        assert_eq!(broken("ab cd ef", 8), ["ab cd ef"]);
        assert_eq!(broken("ab cd ef", 7), ["ab cd", "ef"]);
        assert_eq!(broken("ab cd ef", 4), ["ab", "cd", "ef"]);
    }

    #[test]
    fn a_word_wider_than_a_line_stands_alone() {
        assert_eq!(broken("a bcdef g", 3), ["a", "bcdef", "g"]);
    }

    #[test]
    fn no_words_are_no_lines() {
        assert_eq!(lines([], 66), [""; 0]);
    }
}
