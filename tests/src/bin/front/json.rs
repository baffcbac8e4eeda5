//! A strict reader of JSON, written from the grammar alone.

use std::collections::BTreeMap;

#[derive(Clone, Debug, PartialEq)]
pub enum Value {
    Null,
    Bool(bool),
    Number(u64),
    Text(String),
    List(Vec<Value>),
    Object(BTreeMap<String, Value>),
}

impl Value {
    pub fn get(&self, name: &str) -> Option<&Value> {
        match self {
            Value::Object(fields) => fields.get(name),
            _ => None,
        }
    }

    pub fn text(&self) -> Option<&str> {
        match self {
            Value::Text(text) => Some(text),
            _ => None,
        }
    }

    pub fn list(&self) -> &[Value] {
        match self {
            Value::List(items) => items,
            _ => &[],
        }
    }
}

pub fn parse(text: &str) -> Result<Value, String> {
    let mut reader = Reader { rest: text };
    let value = reader.value()?;
    reader.spaces();
    match reader.rest {
        "" => Ok(value),
        rest => Err(format!("something after the value: {rest:.20}")),
    }
}

struct Reader<'a> {
    rest: &'a str,
}

impl Reader<'_> {
    fn spaces(&mut self) {
        self.rest = self.rest.trim_start_matches([' ', '\t', '\n', '\r']);
    }

    fn passes(&mut self, text: &str) -> bool {
        self.spaces();
        match self.rest.strip_prefix(text) {
            Some(rest) => {
                self.rest = rest;
                true
            }
            None => false,
        }
    }

    fn expect(&mut self, text: &str) -> Result<(), String> {
        match self.passes(text) {
            true => Ok(()),
            false => Err(format!("no {text} before: {:.20}", self.rest)),
        }
    }

    fn value(&mut self) -> Result<Value, String> {
        self.spaces();
        match self.rest.chars().next() {
            Some('{') => self.object(),
            Some('[') => self.items(),
            Some('"') => self.string().map(Value::Text),
            Some(c) if c.is_ascii_digit() => self.number(),
            _ if self.passes("null") => Ok(Value::Null),
            _ if self.passes("true") => Ok(Value::Bool(true)),
            _ if self.passes("false") => Ok(Value::Bool(false)),
            _ => Err(format!("no value: {:.20}", self.rest)),
        }
    }

    fn object(&mut self) -> Result<Value, String> {
        self.expect("{")?;
        let mut fields = BTreeMap::new();
        if self.passes("}") {
            return Ok(Value::Object(fields));
        }
        loop {
            self.spaces();
            let name = self.string()?;
            self.expect(":")?;
            let value = self.value()?;
            if fields.insert(name.clone(), value).is_some() {
                return Err(format!("{name} twice in an object"));
            }
            if !self.passes(",") {
                self.expect("}")?;
                return Ok(Value::Object(fields));
            }
        }
    }

    fn items(&mut self) -> Result<Value, String> {
        self.expect("[")?;
        let mut items = Vec::new();
        if self.passes("]") {
            return Ok(Value::List(items));
        }
        loop {
            items.push(self.value()?);
            if !self.passes(",") {
                self.expect("]")?;
                return Ok(Value::List(items));
            }
        }
    }

    fn number(&mut self) -> Result<Value, String> {
        let end = self.rest.find(|c: char| !c.is_ascii_digit());
        let (digits, rest) = self.rest.split_at(end.unwrap_or(self.rest.len()));
        self.rest = rest;
        let leading = digits.len() > 1 && digits.starts_with('0');
        match digits.parse() {
            Ok(number) if !leading => Ok(Value::Number(number)),
            _ => Err(format!("no number: {digits}")),
        }
    }

    fn string(&mut self) -> Result<String, String> {
        let mut text = String::new();
        let mut characters = self.rest.strip_prefix('"').ok_or("no string")?.chars();
        loop {
            match characters.next().ok_or("a string without end")? {
                '"' => break,
                '\\' => text.push(escape(&mut characters)?),
                c if c < ' ' => return Err("a control character in a string".to_string()),
                c => text.push(c),
            }
        }
        self.rest = characters.as_str();
        Ok(text)
    }
}

fn escape(characters: &mut std::str::Chars) -> Result<char, String> {
    match characters.next() {
        Some(c @ ('"' | '\\' | '/')) => Ok(c),
        Some('n') => Ok('\n'),
        Some('r') => Ok('\r'),
        Some('t') => Ok('\t'),
        Some('u') => {
            let digits: String = characters.by_ref().take(4).collect();
            let code = u32::from_str_radix(&digits, 16).map_err(|_| "no code")?;
            char::from_u32(code).ok_or_else(|| format!("no character: {digits}"))
        }
        other => Err(format!("no escape: {other:?}")),
    }
}
