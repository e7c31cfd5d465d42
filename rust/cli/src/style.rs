//! Colour on a terminal that wants it. Nothing is said by colour alone.

use std::env;

#[derive(Clone, Copy)]
pub struct Style {
    colour: bool,
}

impl Style {
    /// NO_COLOR, if not empty, and a dumb terminal forbid colour.
    pub fn for_output(is_terminal: bool) -> Style {
        let forbidden = env::var_os("NO_COLOR").is_some_and(|value| !value.is_empty());
        let dumb = env::var_os("TERM").is_some_and(|value| value == "dumb");
        Style {
            colour: is_terminal && !forbidden && !dumb,
        }
    }

    pub fn event(self, text: &str) -> String {
        self.painted("1", text)
    }

    pub fn comment(self, text: &str) -> String {
        self.painted("2", text)
    }

    pub fn refusal(self, text: &str) -> String {
        self.painted("31", text)
    }

    pub fn changed(self, text: &str) -> String {
        self.painted("33", text)
    }

    fn painted(self, code: &str, text: &str) -> String {
        if self.colour {
            format!("\x1b[{code}m{text}\x1b[0m")
        } else {
            text.into()
        }
    }
}

#[cfg(test)]
mod tests {
    use super::*;

    #[test]
    fn only_a_terminal_gets_colour() {
        assert_eq!(Style::for_output(false).event("e"), "e");
        let colour = Style { colour: true };
        assert_eq!(colour.refusal("no"), "\x1b[31mno\x1b[0m");
    }
}
