//! As much of JSON as the outside vectors use: numbers are whole and not negative.

pub enum Json {
    Null,
    Number(u64),
    Text(String),
    List(Vec<Json>),
    Object(Vec<(String, Json)>),
}

pub fn parse(text: &str) -> Result<Json, String> {
    let mut reader = Reader { bytes: text.as_bytes(), at: 0 };
    let value = reader.value()?;
    reader.skip_spaces();
    if reader.at < reader.bytes.len() {
        reader.fault("the end")
    } else {
        Ok(value)
    }
}

impl Json {
    pub fn get(&self, name: &str) -> Option<&Json> {
        match self {
            Json::Object(members) => members.iter().find(|member| member.0 == name).map(|m| &m.1),
            _ => None,
        }
    }

    pub fn number(&self) -> Option<u64> {
        match self {
            Json::Number(number) => Some(*number),
            _ => None,
        }
    }

    pub fn text(&self) -> Option<&str> {
        match self {
            Json::Text(text) => Some(text),
            _ => None,
        }
    }

    pub fn list(&self) -> Option<&[Json]> {
        match self {
            Json::List(values) => Some(values),
            _ => None,
        }
    }
}

struct Reader<'a> {
    bytes: &'a [u8],
    at: usize,
}

impl Reader<'_> {
    fn fault<T>(&self, wanted: &str) -> Result<T, String> {
        Err(format!("JSON: {} expected at byte {}", wanted, self.at))
    }

    fn skip_spaces(&mut self) {
        while self.at < self.bytes.len() && self.bytes[self.at].is_ascii_whitespace() {
            self.at += 1;
        }
    }

    /// The next byte that is no space, not yet taken.
    fn peek(&mut self) -> u8 {
        self.skip_spaces();
        *self.bytes.get(self.at).unwrap_or(&0)
    }

    fn take(&mut self, byte: u8) -> Result<(), String> {
        if self.peek() != byte {
            return self.fault(&format!("{:?}", char::from(byte)));
        }
        self.at += 1;
        Ok(())
    }

    fn value(&mut self) -> Result<Json, String> {
        match self.peek() {
            b'{' => self.items(b'{', b'}', Reader::member).map(Json::Object),
            b'[' => self.items(b'[', b']', Reader::value).map(Json::List),
            b'"' => self.string().map(Json::Text),
            b'0'..=b'9' => self.digits(),
            _ if self.bytes[self.at..].starts_with(b"null") => {
                self.at += 4;
                Ok(Json::Null)
            }
            _ => self.fault("a value"),
        }
    }

    /// Items with commas between them, inside the two marks.
    fn items<T>(
        &mut self,
        open: u8,
        close: u8,
        item: fn(&mut Self) -> Result<T, String>,
    ) -> Result<Vec<T>, String> {
        let mut items = Vec::new();
        self.take(open)?;
        while self.peek() != close {
            if !items.is_empty() {
                self.take(b',')?;
            }
            items.push(item(self)?);
        }
        self.take(close)?;
        Ok(items)
    }

    fn member(&mut self) -> Result<(String, Json), String> {
        self.skip_spaces();
        let name = self.string()?;
        self.take(b':')?;
        Ok((name, self.value()?))
    }

    /// The vectors' strings are names and hexadecimal bytes, so none has an escape.
    fn string(&mut self) -> Result<String, String> {
        self.take(b'"')?;
        let start = self.at;
        while self.at < self.bytes.len() && !matches!(self.bytes[self.at], b'"' | b'\\') {
            self.at += 1;
        }
        let text = String::from_utf8_lossy(&self.bytes[start..self.at]).into_owned();
        self.take(b'"')?;
        Ok(text)
    }

    fn digits(&mut self) -> Result<Json, String> {
        let mut number: u64 = 0;
        while let Some(digit @ b'0'..=b'9') = self.bytes.get(self.at) {
            let next = number.checked_mul(10).and_then(|n| n.checked_add(u64::from(digit - b'0')));
            number = match next {
                Some(next) => next,
                None => return self.fault("a number below 2^64"),
            };
            self.at += 1;
        }
        Ok(Json::Number(number))
    }
}
