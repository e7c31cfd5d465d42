//! The words of an event after its name: its subject, then keywords with their values in any order.

use std::ops::RangeInclusive;

use crate::words::{Fault, Word};

/// How an event is written: `usage` is what a fault says was expected.
pub struct Form {
    pub name: &'static str,
    pub usage: &'static str,
    pub keywords: &'static [&'static str],
}

/// These take all words up to the next keyword; every other keyword takes one.
const TAKE_MANY: [&str; 2] = ["list", "topics"];

pub struct Fields<'a> {
    form: &'static Form,
    values: Vec<(&'static str, Word<'a>, Vec<Word<'a>>)>,
    /// The words that are no value of a keyword.
    pub rest: Vec<Word<'a>>,
    /// Where the event ends in its line.
    end: usize,
}

impl<'a> Fields<'a> {
    pub fn read(form: &'static Form, words: &[Word<'a>], end: usize) -> Result<Fields<'a>, Fault> {
        let mut fields = Fields {
            form,
            values: Vec::new(),
            rest: Vec::new(),
            end,
        };
        for word in words {
            fields.take(*word)?;
        }
        Ok(fields)
    }

    fn take(&mut self, word: Word<'a>) -> Result<(), Fault> {
        let keywords = self.form.keywords;
        if let Some(keyword) = keywords.iter().find(|keyword| **keyword == word.text) {
            if self.values.iter().any(|(known, ..)| known == keyword) {
                return Err(self.fault(word, format!("'{keyword}' stands twice")));
            }
            self.values.push((keyword, word, Vec::new()));
            return Ok(());
        }
        match self.values.last_mut() {
            Some((keyword, _, values)) if values.is_empty() || TAKE_MANY.contains(keyword) => {
                values.push(word);
            }
            _ => self.rest.push(word),
        }
        Ok(())
    }

    /// Nothing may be left over.
    pub fn no_rest(&self) -> Result<(), Fault> {
        match self.rest.first() {
            None => Ok(()),
            Some(word) => {
                let wrong = format!("'{}' is no part of {}", word.text, self.form.name);
                Err(self.fault(*word, wrong))
            }
        }
    }

    /// The values of a keyword that takes many; None if the keyword is not there.
    pub fn many(&self, keyword: &str) -> Result<Option<&[Word<'a>]>, Fault> {
        let found = self.values.iter().find(|(known, ..)| *known == keyword);
        match found {
            None => Ok(None),
            Some((_, word, values)) if values.is_empty() => {
                Err(self.fault(*word, format!("'{keyword}' has no value")))
            }
            Some((_, _, values)) => Ok(Some(values)),
        }
    }

    pub fn one(&self, keyword: &str) -> Result<Option<Word<'a>>, Fault> {
        let values = self.many(keyword)?;
        Ok(values.and_then(|values| values.first().copied()))
    }

    pub fn needed(&self, keyword: &str) -> Result<Word<'a>, Fault> {
        let missing = || self.form.missing(&format!("'{keyword}'"), self.end);
        self.one(keyword)?.ok_or_else(missing)
    }

    /// A size that is small unless somebody tries things; `usual` if it is not given.
    pub fn size(&self, keyword: &str, usual: usize) -> Result<usize, Fault> {
        const BOUNDS: RangeInclusive<u16> = 0..=u16::MAX;
        match self.one(keyword)? {
            None => Ok(usual),
            Some(word) => Ok(word.number(BOUNDS)?.into()),
        }
    }

    fn fault(&self, word: Word, wrong: String) -> Fault {
        word.fault(wrong, self.form.usage)
    }
}

impl Form {
    /// The first word, which is no keyword and stands for `what`, and the words after it.
    pub fn subject<'w, 'a>(
        &self,
        words: &'w [Word<'a>],
        end: usize,
        what: &str,
    ) -> Result<(Word<'a>, &'w [Word<'a>]), Fault> {
        match words.split_first() {
            Some((word, rest)) if !self.keywords.contains(&word.text) => Ok((*word, rest)),
            _ => Err(self.missing(what, end)),
        }
    }

    fn missing(&self, what: &str, end: usize) -> Fault {
        Fault {
            at: end,
            length: 0,
            wrong: format!("{} has no {what}", self.name),
            expected: self.usage.into(),
        }
    }
}
