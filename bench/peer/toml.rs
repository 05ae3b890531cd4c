//! A small reader of TOML. It is no full TOML reader: it knows what profiles use, which is keys, bare and
//! quoted; headers `[name]` and `[[name]]`; whole numbers in any base; truth values; texts in all four
//! spellings; arrays; tables in line; comments. It knows no dotted keys, no numbers with a fraction and
//! no dates: it answers for them, as for what is really wrong, that the text is no TOML.

/// A value of a document.
pub enum Value {
    Integer(i64),
    Truth(bool),
    Text(String),
    Array(Vec<Value>),
    Table(Table),
}

/// A table: its keys and their values, in the order of the text.
#[derive(Default)]
pub struct Table {
    entries: Vec<(String, Value)>,
}

/// The text is none that this reader takes.
pub struct NotToml;

type Read<T> = Result<T, NotToml>;

impl Table {
    /// The value of a key.
    pub fn get(&self, key: &str) -> Option<&Value> {
        let entry = self.entries.iter().find(|(name, _)| name == key);
        entry.map(|(_, value)| value)
    }

    /// The keys, in the order of the text.
    pub fn keys(&self) -> impl Iterator<Item = &str> {
        self.entries.iter().map(|(name, _)| name.as_str())
    }

    /// Puts a new key in. A key may stand once.
    fn insert(&mut self, key: String, value: Value) -> Read<()> {
        if self.get(&key).is_some() {
            return Err(NotToml);
        }
        self.entries.push((key, value));
        Ok(())
    }

    fn get_mut(&mut self, key: &str) -> Option<&mut Value> {
        let entry = self.entries.iter_mut().find(|(name, _)| name == key);
        entry.map(|(_, value)| value)
    }
}

/// Reads a document. A byte order mark may stand at its front.
pub fn read_document(text: &[u8]) -> Read<Table> {
    let text = std::str::from_utf8(text).map_err(|_| NotToml)?;
    let rest = text.strip_prefix('\u{feff}').unwrap_or(text);
    let mut document = Document {
        root: Table::default(),
        headed: Vec::new(),
        place: Place::Root,
    };
    let mut reader = Reader { rest };
    while reader.skip_to_item()? {
        if reader.take("[[") {
            let name = reader.header("]]")?;
            document.open_item(name)?;
        } else if reader.take("[") {
            let name = reader.header("]")?;
            document.open_table(name)?;
        } else {
            let (key, value) = reader.pair()?;
            document.current()?.insert(key, value)?;
        }
        reader.end_of_line()?;
    }
    Ok(document.root)
}

/// The document as far as it was read.
struct Document {
    root: Table,
    /// The arrays that headers `[[name]]` made: they alone may be continued by such a header.
    headed: Vec<String>,
    place: Place,
}

/// The table that a pair belongs to: the root, or the one that the latest header opened.
enum Place {
    Root,
    Named(String),
}

impl Document {
    fn open_item(&mut self, name: String) -> Read<()> {
        if !self.headed.contains(&name) {
            self.root.insert(name.clone(), Value::Array(Vec::new()))?;
            self.headed.push(name.clone());
        }
        let Some(Value::Array(items)) = self.root.get_mut(&name) else {
            return Err(NotToml);
        };
        items.push(Value::Table(Table::default()));
        self.place = Place::Named(name);
        Ok(())
    }

    fn open_table(&mut self, name: String) -> Read<()> {
        self.root
            .insert(name.clone(), Value::Table(Table::default()))?;
        self.place = Place::Named(name);
        Ok(())
    }

    fn current(&mut self) -> Read<&mut Table> {
        let Place::Named(name) = &self.place else {
            return Ok(&mut self.root);
        };
        match self.root.get_mut(name) {
            Some(Value::Table(table)) => Ok(table),
            Some(Value::Array(items)) => match items.last_mut() {
                Some(Value::Table(table)) => Ok(table),
                _ => Err(NotToml),
            },
            _ => Err(NotToml),
        }
    }
}

/// The rest of the text, which every call shortens by what it reads.
struct Reader<'a> {
    rest: &'a str,
}

impl Reader<'_> {
    /// Takes this text, if the rest begins with it.
    fn take(&mut self, text: &str) -> bool {
        match self.rest.strip_prefix(text) {
            Some(rest) => {
                self.rest = rest;
                true
            }
            None => false,
        }
    }

    fn expect(&mut self, text: &str) -> Read<()> {
        if self.take(text) {
            Ok(())
        } else {
            Err(NotToml)
        }
    }

    fn next(&mut self) -> Read<char> {
        let mut characters = self.rest.chars();
        let next = characters.next().ok_or(NotToml)?;
        self.rest = characters.as_str();
        Ok(next)
    }

    /// Takes what is before the first character for which `wanted` does not hold.
    fn take_while(&mut self, wanted: impl Fn(char) -> bool) -> &str {
        let length = self.rest.find(|c| !wanted(c)).unwrap_or(self.rest.len());
        let (taken, rest) = self.rest.split_at(length);
        self.rest = rest;
        taken
    }

    fn skip_blanks(&mut self) {
        self.rest = self.rest.trim_start_matches([' ', '\t']);
    }

    fn take_line_end(&mut self) -> bool {
        self.take("\n") || self.take("\r\n")
    }

    fn skip_comment(&mut self) -> Read<()> {
        if self.take("#") {
            let comment = self.take_while(|c| c != '\n');
            let comment = comment.strip_suffix('\r').unwrap_or(comment);
            if comment.contains(is_forbidden) {
                return Err(NotToml);
            }
        }
        Ok(())
    }

    /// Skips blanks, comments and line ends.
    fn skip_space(&mut self) -> Read<()> {
        loop {
            self.skip_blanks();
            self.skip_comment()?;
            if !self.take_line_end() {
                return Ok(());
            }
        }
    }

    /// Goes to the next header or pair, and says whether there is one.
    fn skip_to_item(&mut self) -> Read<bool> {
        self.skip_space()?;
        Ok(!self.rest.is_empty())
    }

    fn end_of_line(&mut self) -> Read<()> {
        self.skip_blanks();
        self.skip_comment()?;
        if self.take_line_end() || self.rest.is_empty() {
            Ok(())
        } else {
            Err(NotToml)
        }
    }

    fn header(&mut self, close: &str) -> Read<String> {
        self.skip_blanks();
        let name = self.key()?;
        self.skip_blanks();
        self.expect(close)?;
        Ok(name)
    }

    fn pair(&mut self) -> Read<(String, Value)> {
        let key = self.key()?;
        self.skip_blanks();
        self.expect("=")?;
        self.skip_blanks();
        Ok((key, self.value()?))
    }

    fn key(&mut self) -> Read<String> {
        if self.take("\"") {
            return self.basic_text();
        }
        if self.take("'") {
            return self.literal_text();
        }
        let bare = self.take_while(|c| c.is_ascii_alphanumeric() || c == '_' || c == '-');
        if bare.is_empty() {
            Err(NotToml)
        } else {
            Ok(bare.to_string())
        }
    }

    fn value(&mut self) -> Read<Value> {
        if self.take("\"\"\"") {
            self.long_text(true, "\"\"\"").map(Value::Text)
        } else if self.take("'''") {
            self.long_text(false, "'''").map(Value::Text)
        } else if self.take("\"") {
            self.basic_text().map(Value::Text)
        } else if self.take("'") {
            self.literal_text().map(Value::Text)
        } else if self.take("[") {
            self.array()
        } else if self.take("{") {
            self.table_in_line()
        } else {
            self.word()
        }
    }

    /// A truth value or a whole number.
    fn word(&mut self) -> Read<Value> {
        let word = self.take_while(|c| c.is_ascii_alphanumeric() || "_+-.:".contains(c));
        match word {
            "true" => Ok(Value::Truth(true)),
            "false" => Ok(Value::Truth(false)),
            _ => read_integer(word).map(Value::Integer),
        }
    }

    fn array(&mut self) -> Read<Value> {
        let mut items = Vec::new();
        loop {
            self.skip_space()?;
            if self.take("]") {
                return Ok(Value::Array(items));
            }
            items.push(self.value()?);
            self.skip_space()?;
            if !self.take(",") {
                self.expect("]")?;
                return Ok(Value::Array(items));
            }
        }
    }

    fn table_in_line(&mut self) -> Read<Value> {
        let mut table = Table::default();
        loop {
            self.skip_space()?;
            if self.take("}") {
                return Ok(Value::Table(table));
            }
            let (key, value) = self.pair()?;
            table.insert(key, value)?;
            self.skip_space()?;
            if !self.take(",") {
                self.expect("}")?;
                return Ok(Value::Table(table));
            }
        }
    }

    /// The rest of a text in apostrophes.
    fn literal_text(&mut self) -> Read<String> {
        let text = self
            .take_while(|c| c != '\'' && !is_forbidden(c))
            .to_string();
        self.expect("'")?;
        Ok(text)
    }

    /// The rest of a text in quotation marks.
    fn basic_text(&mut self) -> Read<String> {
        let mut text = String::new();
        loop {
            match self.next()? {
                '"' => return Ok(text),
                '\\' => text.push(self.escape()?),
                c if is_forbidden(c) => return Err(NotToml),
                c => text.push(c),
            }
        }
    }

    /// The rest of a text of several lines. A line end right at its front is not part of it, and its last
    /// quotation marks may be two more than close it.
    fn long_text(&mut self, escapes: bool, close: &str) -> Read<String> {
        let mut text = String::new();
        self.take_line_end();
        while !self.take(close) {
            if self.take_line_end() {
                text.push('\n');
            } else if escapes && self.take("\\") {
                if !self.skip_line_break()? {
                    text.push(self.escape()?);
                }
            } else {
                match self.next()? {
                    c if is_forbidden(c) => return Err(NotToml),
                    c => text.push(c),
                }
            }
        }
        for _ in 0..2 {
            if self.take(&close[..1]) {
                text.push_str(&close[..1]);
            }
        }
        Ok(text)
    }

    /// After a backslash: takes the end of the line and the blanks and line ends that follow, if nothing
    /// else stands there.
    fn skip_line_break(&mut self) -> Read<bool> {
        let spaces = self.rest.trim_start_matches([' ', '\t']);
        if !spaces.starts_with('\n') && !spaces.starts_with("\r\n") {
            return Ok(false);
        }
        self.skip_blanks();
        while self.take_line_end() {
            self.skip_blanks();
        }
        Ok(true)
    }

    /// The character that an escape stands for; its backslash has been taken.
    fn escape(&mut self) -> Read<char> {
        match self.next()? {
            'b' => Ok('\u{8}'),
            't' => Ok('\t'),
            'n' => Ok('\n'),
            'f' => Ok('\u{c}'),
            'r' => Ok('\r'),
            'e' => Ok('\u{1b}'),
            '"' => Ok('"'),
            '\\' => Ok('\\'),
            'x' => self.character(2),
            'u' => self.character(4),
            'U' => self.character(8),
            _ => Err(NotToml),
        }
    }

    /// The character whose number stands in so many hexadecimal digits.
    fn character(&mut self, digits: usize) -> Read<char> {
        let text = self.rest.get(..digits).ok_or(NotToml)?;
        if !text.bytes().all(|digit| digit.is_ascii_hexdigit()) {
            return Err(NotToml);
        }
        let number = u32::from_str_radix(text, 16).map_err(|_| NotToml)?;
        self.rest = &self.rest[digits..];
        char::from_u32(number).ok_or(NotToml)
    }
}

/// Whether a character may stand neither in a comment nor in a text of one line.
fn is_forbidden(c: char) -> bool {
    c.is_ascii_control() && c != '\t'
}

/// A whole number of 64 bits. A sign may stand before decimal digits alone, where no zero may lead.
fn read_integer(word: &str) -> Read<i64> {
    for (prefix, base) in [("0x", 16), ("0o", 8), ("0b", 2)] {
        if let Some(digits) = word.strip_prefix(prefix) {
            return i64::from_str_radix(&plain_digits(digits, base)?, base).map_err(|_| NotToml);
        }
    }
    let digits = word.strip_prefix(['+', '-']).unwrap_or(word);
    let plain = plain_digits(digits, 10)?;
    if plain.len() > 1 && plain.starts_with('0') {
        return Err(NotToml);
    }
    let sign = if word.starts_with('-') { "-" } else { "" };
    format!("{sign}{plain}").parse().map_err(|_| NotToml)
}

/// The digits without the underscores between them.
fn plain_digits(digits: &str, base: u32) -> Read<String> {
    let is_run = |run: &str| !run.is_empty() && run.chars().all(|digit| digit.is_digit(base));
    if digits.split('_').all(is_run) {
        Ok(digits.replace('_', ""))
    } else {
        Err(NotToml)
    }
}
