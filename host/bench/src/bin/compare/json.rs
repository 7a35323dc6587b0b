//! A small reader of JSON, for what the tool prints.
use std::iter::Peekable;
use std::str::Chars;
#[cfg(oracle)]
use std::str::FromStr;

/// Numbers stay as they are written.
#[derive(Debug, Clone, PartialEq)]
pub enum Json {
    Null,
    Truth(bool),
    Number(String),
    Text(String),
    List(Vec<Json>),
    Object(Vec<(String, Json)>),
}

impl Json {
    /// The whole text as one value; none where it is not JSON.
    pub fn read(text: &str) -> Option<Self> {
        let mut reader = Reader { rest: text.chars().peekable() };
        let value = reader.value()?;
        reader.skip_blanks();
        reader.rest.next().is_none().then_some(value)
    }

    pub fn list(&self) -> Option<&[Self]> {
        if let Self::List(items) = self { Some(items) } else { None }
    }

    /// The value of an object's field.
    pub fn field(&self, name: &str) -> Option<&Self> {
        let Self::Object(fields) = self else { return None };
        fields.iter().find(|field| field.0 == name).map(|field| &field.1)
    }

    /// The names of an object's fields that are null.
    pub fn nulls(&self) -> Option<Vec<&str>> {
        let Self::Object(fields) = self else { return None };
        let nulls = fields.iter().filter(|(_, value)| *value == Self::Null);
        Some(nulls.map(|(name, _)| name.as_str()).collect())
    }
}

/// Single values, beside the oracle's.
#[cfg(oracle)]
impl Json {
    pub fn text(&self) -> Option<String> {
        if let Self::Text(text) = self { Some(text.clone()) } else { None }
    }

    pub fn number<F: FromStr>(&self) -> Option<F> {
        if let Self::Number(digits) = self { digits.parse().ok() } else { None }
    }

    pub fn truth(&self) -> Option<bool> {
        if let Self::Truth(truth) = self { Some(*truth) } else { None }
    }
}

struct Reader<'a> {
    rest: Peekable<Chars<'a>>,
}

impl Reader<'_> {
    fn skip_blanks(&mut self) {
        while self.rest.next_if(|c| " \n\r\t".contains(*c)).is_some() {}
    }

    /// Blanks, then this character.
    fn mark(&mut self, wanted: char) -> bool {
        self.skip_blanks();
        self.rest.next_if_eq(&wanted).is_some()
    }

    fn value(&mut self) -> Option<Json> {
        self.skip_blanks();
        match self.rest.peek()? {
            'n' => self.word("null", Json::Null),
            't' => self.word("true", Json::Truth(true)),
            'f' => self.word("false", Json::Truth(false)),
            '"' => self.text().map(Json::Text),
            '[' => self.items('[', ']', Self::value).map(Json::List),
            '{' => self.items('{', '}', Self::field).map(Json::Object),
            _ => self.number(),
        }
    }

    /// The value that a word stands for.
    fn word(&mut self, word: &str, value: Json) -> Option<Json> {
        word.chars().all(|c| self.rest.next() == Some(c)).then_some(value)
    }

    fn number(&mut self) -> Option<Json> {
        let digits: String =
            std::iter::from_fn(|| self.rest.next_if(|c| "+-.0123456789eE".contains(*c))).collect();
        digits.parse::<f64>().ok().map(|_| Json::Number(digits))
    }

    fn text(&mut self) -> Option<String> {
        let mut text = String::new();
        if !self.mark('"') {
            return None;
        }
        loop {
            match self.rest.next()? {
                '"' => return Some(text),
                '\\' => text.push(self.escaped()?),
                c if c < ' ' => return None,
                c => text.push(c),
            }
        }
    }

    fn escaped(&mut self) -> Option<char> {
        match self.rest.next()? {
            'u' => {
                let digits: String = self.rest.by_ref().take(4).collect();
                char::from_u32(u32::from_str_radix(&digits, 16).ok()?)
            }
            c => "\"\\/".contains(c).then_some(c),
        }
    }

    fn field(&mut self) -> Option<(String, Json)> {
        let name = self.text()?;
        if self.mark(':') { Some((name, self.value()?)) } else { None }
    }

    /// Items between two marks, with commas between them.
    fn items<A>(&mut self, first: char, last: char, item: impl Fn(&mut Self) -> Option<A>) -> Option<Vec<A>> {
        let mut items = vec![];
        if !self.mark(first) {
            return None;
        }
        if self.mark(last) {
            return Some(items);
        }
        loop {
            items.push(item(self)?);
            if self.mark(last) {
                return Some(items);
            }
            if !self.mark(',') {
                return None;
            }
        }
    }
}
