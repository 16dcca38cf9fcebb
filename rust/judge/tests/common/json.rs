//! A strict reader of JSON.

use std::collections::BTreeMap;

#[derive(Clone, Debug, PartialEq)]
pub enum Json {
    Null,
    Truth(bool),
    Number(u64),
    Text(String),
    List(Vec<Json>),
    Object(BTreeMap<String, Json>),
}

impl Json {
    /// The one value that the text is, with nothing around it.
    pub fn parse(text: &str) -> Result<Json, String> {
        let mut reader = Reader(text);
        let value = reader.value()?;
        match reader.0 {
            "" => Ok(value),
            rest => Err(format!("more follows: {rest:?}")),
        }
    }

    #[track_caller]
    pub fn field(&self, name: &str) -> &Json {
        match self {
            Json::Object(fields) => {
                fields.get(name).unwrap_or_else(|| panic!("no {name}: {self:?}"))
            }
            _ => panic!("no object: {self:?}"),
        }
    }

    pub fn names(&self) -> Vec<&str> {
        match self {
            Json::Object(fields) => fields.keys().map(String::as_str).collect(),
            _ => Vec::new(),
        }
    }

    #[track_caller]
    pub fn text(&self) -> &str {
        match self {
            Json::Text(text) => text,
            _ => panic!("no text: {self:?}"),
        }
    }

    #[track_caller]
    pub fn number(&self) -> usize {
        match self {
            Json::Number(number) => *number as usize,
            _ => panic!("no number: {self:?}"),
        }
    }

    #[track_caller]
    pub fn items(&self) -> &[Json] {
        match self {
            Json::List(values) => values,
            _ => panic!("no list: {self:?}"),
        }
    }

    #[track_caller]
    pub fn numbers(&self) -> Vec<usize> {
        self.items().iter().map(Json::number).collect()
    }
}

struct Reader<'a>(&'a str);

impl Reader<'_> {
    fn value(&mut self) -> Result<Json, String> {
        for (word, value) in
            [("null", Json::Null), ("true", Json::Truth(true)), ("false", Json::Truth(false))]
        {
            if self.take(word) {
                return Ok(value);
            }
        }
        match self.0.chars().next() {
            Some('"') => self.string().map(Json::Text),
            Some('[') => self.list(),
            Some('{') => self.object(),
            Some('0'..='9') => self.number(),
            other => Err(format!("no value begins with {other:?}")),
        }
    }

    fn take(&mut self, word: &str) -> bool {
        let rest = self.0.strip_prefix(word);
        self.0 = rest.unwrap_or(self.0);
        rest.is_some()
    }

    fn ask(&mut self, word: &str) -> Result<(), String> {
        match self.take(word) {
            true => Ok(()),
            false => Err(format!("no {word} before {:?}", self.0)),
        }
    }

    fn number(&mut self) -> Result<Json, String> {
        let end = self.0.find(|c: char| !c.is_ascii_digit()).unwrap_or(self.0.len());
        let (digits, rest) = self.0.split_at(end);
        self.0 = rest;
        if digits.len() > 1 && digits.starts_with('0') {
            return Err(format!("a leading zero: {digits}"));
        }
        digits.parse().map(Json::Number).map_err(|error| format!("{digits}: {error}"))
    }

    fn list(&mut self) -> Result<Json, String> {
        self.ask("[")?;
        let mut values = Vec::new();
        while !self.take("]") {
            if !values.is_empty() {
                self.ask(",")?;
            }
            values.push(self.value()?);
        }
        Ok(Json::List(values))
    }

    fn object(&mut self) -> Result<Json, String> {
        self.ask("{")?;
        let mut fields = BTreeMap::new();
        while !self.take("}") {
            if !fields.is_empty() {
                self.ask(",")?;
            }
            let name = self.string()?;
            self.ask(":")?;
            let value = self.value()?;
            if fields.insert(name.clone(), value).is_some() {
                return Err(format!("{name} twice"));
            }
        }
        Ok(Json::Object(fields))
    }

    fn string(&mut self) -> Result<String, String> {
        self.ask("\"")?;
        let mut string = String::new();
        loop {
            let letter = self.0.chars().next().ok_or("a string with no end")?;
            self.0 = &self.0[letter.len_utf8()..];
            match letter {
                '"' => return Ok(string),
                '\\' => string.push(self.escaped()?),
                '\0'..='\x1f' => return Err(format!("the control {letter:?} in a string")),
                _ => string.push(letter),
            }
        }
    }

    fn escaped(&mut self) -> Result<char, String> {
        for (word, letter) in [("\"", '"'), ("\\", '\\'), ("/", '/'), ("n", '\n'), ("t", '\t')] {
            if self.take(word) {
                return Ok(letter);
            }
        }
        self.ask("u")?;
        let (digits, rest) = self.0.split_at_checked(4).ok_or("a short escape")?;
        self.0 = rest;
        let number =
            u32::from_str_radix(digits, 16).map_err(|error| format!("{digits}: {error}"))?;
        char::from_u32(number).ok_or(format!("\\u{digits} is half a letter"))
    }
}
