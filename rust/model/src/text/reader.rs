//! What the texts of sheets and price lists have in common: comments, an order, letters, and entries with `=` between two parts.

use crate::Word;
use std::fmt;

/// Why a text is refused: the line, from 1, and what is wrong with it.
#[derive(Debug, PartialEq, Eq)]
pub struct Fault {
    pub line: usize,
    pub what: String,
}

impl fmt::Display for Fault {
    fn fmt(&self, f: &mut fmt::Formatter) -> fmt::Result {
        write!(f, "line {}: {}", self.line, self.what)
    }
}

/// What a text stands for: how an entry is read, and the words in which faults are told.
pub struct Form<E> {
    /// What it is, as in "sheet".
    pub whole: &'static str,
    /// What it lists, as in "equation", and its article.
    pub entry: &'static str,
    pub article: &'static str,
    /// What is behind the `=` of an entry, and an entry.
    pub behind: &'static str,
    pub example: &'static str,
    /// What `=` stands between.
    pub between: &'static str,
    /// What its bytes are good for, where they come in place of a text.
    pub bytes: &'static str,
    /// How many entries it has at most.
    pub most: usize,
    /// The entry of two parts.
    pub read: fn(&Reader<E>, &str, &str) -> Result<E, String>,
}

/// What was said so far; order and letters with their lines.
pub struct Reader<E> {
    order: Option<(usize, u16)>,
    letters: Option<(usize, Vec<char>)>,
    pub entries: Vec<E>,
}

/// What a text says: the order's code, the letters' names, the entries.
pub struct Said<E> {
    pub order: u16,
    pub letters: Vec<char>,
    pub entries: Vec<E>,
}

impl<E> Form<E> {
    /// Reads a text.
    pub fn text(&self, text: &str) -> Result<Said<E>, Fault> {
        let mut reader = Reader { order: None, letters: None, entries: Vec::new() };
        for (number, line) in (1..).zip(text.lines()) {
            self.line(&mut reader, number, line).map_err(|what| Fault { line: number, what })?;
        }
        self.end(reader).map_err(|what| Fault { line: text.lines().count().max(1), what })
    }

    /// The text of bytes that are one.
    pub fn text_of<'a>(&self, bytes: &'a [u8]) -> Result<&'a str, Fault> {
        let (text, end) = match std::str::from_utf8(bytes) {
            Ok(text) => (text, text.find('\0')),
            Err(fault) => ("", Some(fault.valid_up_to())),
        };
        let Some(end) = end else {
            return Ok(text);
        };
        let line = 1 + bytes[..end].iter().filter(|&&b| b == b'\n').count();
        Err(Fault { line, what: format!("no text in UTF-8; the bytes of a {} {}", self.whole, self.bytes) })
    }

    fn line(&self, reader: &mut Reader<E>, number: usize, line: &str) -> Result<(), String> {
        let (said, comment) = line.split_once('#').map_or((line, None), |(said, comment)| (said, Some(comment)));
        if comment.is_some() && said.ends_with(|c: char| !c.is_whitespace()) {
            return Err("# starts a comment and is no letter; a comment needs a space before it".to_string());
        }
        let words: Vec<&str> = said.split_whitespace().collect();
        match words[..] {
            [] => Ok(()),
            [left, "=", right] if reader.letters.is_some() => self.entry(reader, left, right),
            ["order", ..] => self.order(reader, number, &words[1..]),
            ["letters", ..] => self.letters(reader, number, &words[1..], comment),
            _ => Err(self.unclear(reader, said)),
        }
    }

    fn order(&self, reader: &mut Reader<E>, number: usize, names: &[&str]) -> Result<(), String> {
        if let Some((line, _)) = reader.order {
            return Err(format!("a second order: line {line} gave one, and a {} has one", self.whole));
        }
        let code = match names {
            ["shortlex"] => 0,
            ["kachinuki"] => 1,
            _ => return Err("the order is `order shortlex` or `order kachinuki`".to_string()),
        };
        reader.order = Some((number, code));
        Ok(())
    }

    fn letters(&self, reader: &mut Reader<E>, number: usize, names: &[&str], comment: Option<&str>) -> Result<(), String> {
        if let Some((line, _)) = reader.letters {
            return Err(format!("letters a second time: line {line} named them, and a {} names them once", self.whole));
        }
        if comment.is_some_and(|c| c.split_whitespace().all(|w| single(w).is_some())) {
            return Err("# starts a comment and cannot be a letter; what is behind it is not named".to_string());
        }
        let mut letters = Vec::new();
        for name in names {
            let letter = self.letter(name)?;
            if letters.contains(&letter) {
                return Err(format!("the letter {letter} is named twice"));
            }
            letters.push(letter);
        }
        if letters.is_empty() || letters.len() > 32 {
            return Err(format!("{} letters; a {} has 1 to 32, as in `letters a b`", letters.len(), self.whole));
        }
        reader.letters = Some((number, letters));
        Ok(())
    }

    /// A name as a letter.
    fn letter(&self, name: &str) -> Result<char, String> {
        match single(name) {
            Some('-') => Err("- cannot be a letter; it is the empty word".to_string()),
            Some('=') => Err(format!("= cannot be a letter; it stands between {}", self.between)),
            Some(c) => Ok(c),
            None => Err(format!("{name} is not a letter; a letter is one character, and spaces stand between letters")),
        }
    }

    fn entry(&self, reader: &mut Reader<E>, left: &str, right: &str) -> Result<(), String> {
        if reader.entries.len() == self.most {
            return Err(format!("a {}th {}; a {} has at most {}", self.most + 1, self.entry, self.whole, self.most));
        }
        let entry = (self.read)(reader, left, right)?;
        reader.entries.push(entry);
        Ok(())
    }

    /// What is wrong with a line that is no order, no letters and no entry.
    fn unclear(&self, reader: &Reader<E>, said: &str) -> String {
        let Form { entry, article, behind, example, .. } = self;
        if !said.contains('=') {
            format!("neither an order, nor letters, nor {article} {entry}; {article} {entry} is written with =, as in `{example}`")
        } else if reader.letters.is_none() {
            format!("{article} {entry} before the letters; name them above it, as in `letters a b`")
        } else {
            format!(
                "no {entry}; one is a word without spaces, a space, =, a space and {behind}, as in `{example}`; - is the empty word"
            )
        }
    }

    fn end(&self, reader: Reader<E>) -> Result<Said<E>, String> {
        let Form { whole, entry, .. } = self;
        let missing = match (reader.order, reader.letters) {
            (Some((_, order)), Some((_, letters))) => return Ok(Said { order, letters, entries: reader.entries }),
            (None, None) => return Err(format!("the text says nothing; a {whole} has an order, letters and {entry}s")),
            (None, _) => "no order; add a line `order shortlex` or `order kachinuki`",
            (_, None) => "no letters; add a line that names them from the least to the greatest, as in `letters a b`",
        };
        Err(missing.to_string())
    }
}

impl<E> Reader<E> {
    /// A word of at most so many letters; `part` is what it is there.
    pub fn word(&self, text: &str, part: &str, most: usize) -> Result<Word, String> {
        if text == "-" {
            return Ok(Vec::new());
        }
        let word = text.chars().map(|c| self.place(c)).collect::<Result<Word, String>>()?;
        if word.len() > most {
            return Err(format!("a {part} of {} letters; a {part} has at most {most}", word.len()));
        }
        Ok(word)
    }

    /// The place of a letter among those that were named.
    fn place(&self, c: char) -> Result<u8, String> {
        let letters = self.letters.as_ref().map_or(&[][..], |(_, letters)| letters);
        let place = letters.iter().position(|&l| l == c);
        place.map(|k| k as u8).ok_or_else(|| match c {
            '-' => "- is the empty word, and stands alone on its side".to_string(),
            _ => format!("{c} is not among the letters {}", letters.iter().map(char::to_string).collect::<Vec<_>>().join(" ")),
        })
    }
}

/// The character of a text that is one.
fn single(text: &str) -> Option<char> {
    let mut all = text.chars();
    all.next().filter(|_| all.next().is_none())
}
