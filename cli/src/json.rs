//! Answers for other programs.

use std::fmt::{self, Display, Formatter, Write};

#[derive(Clone, Debug)]
pub enum Json {
    Null,
    Bool(bool),
    Number(u64),
    Text(String),
    List(Vec<Json>),
    Object(Vec<(&'static str, Json)>),
}

impl From<&str> for Json {
    fn from(text: &str) -> Json {
        Json::Text(text.to_string())
    }
}

impl From<String> for Json {
    fn from(text: String) -> Json {
        Json::Text(text)
    }
}

impl From<usize> for Json {
    fn from(number: usize) -> Json {
        Json::Number(number as u64)
    }
}

impl From<bool> for Json {
    fn from(value: bool) -> Json {
        Json::Bool(value)
    }
}

impl From<Option<String>> for Json {
    fn from(text: Option<String>) -> Json {
        text.map_or(Json::Null, Json::Text)
    }
}

impl FromIterator<Json> for Json {
    fn from_iter<I: IntoIterator<Item = Json>>(items: I) -> Json {
        Json::List(items.into_iter().collect())
    }
}

impl Json {
    fn parts(&self) -> &[(&'static str, Json)] {
        match self {
            Json::Object(fields) => fields,
            _ => &[],
        }
    }

    /// Whether it stands in one line: nothing in it holds anything that holds something.
    fn short(&self) -> bool {
        let flat = |json: &Json| match json {
            Json::List(items) => items.is_empty(),
            Json::Object(fields) => fields.is_empty(),
            _ => true,
        };
        match self {
            Json::List(items) => items.iter().all(flat),
            _ => self.parts().iter().all(|(_, value)| flat(value)),
        }
    }

    fn write(&self, f: &mut Formatter, depth: usize) -> fmt::Result {
        match self {
            Json::Null => f.write_str("null"),
            Json::Bool(value) => write!(f, "{value}"),
            Json::Number(number) => write!(f, "{number}"),
            Json::Text(text) => write_text(f, text),
            Json::List(items) => {
                let items = items.iter().map(|item| (None, item));
                self.write_all(f, depth, ('[', ']'), items)
            }
            Json::Object(fields) => {
                let fields = fields.iter().map(|(name, value)| (Some(*name), value));
                self.write_all(f, depth, ('{', '}'), fields)
            }
        }
    }

    fn write_all<'a>(
        &self,
        f: &mut Formatter,
        depth: usize,
        (open, close): (char, char),
        items: impl Iterator<Item = (Option<&'static str>, &'a Json)>,
    ) -> fmt::Result {
        let short = self.short();
        let line = |depth: usize| match short {
            true => String::new(),
            false => format!("\n{}", "  ".repeat(depth)),
        };
        f.write_char(open)?;
        for (i, (name, value)) in items.enumerate() {
            match (i, short) {
                (0, _) => {}
                (_, true) => f.write_str(", ")?,
                (_, false) => f.write_char(',')?,
            }
            f.write_str(&line(depth + 1))?;
            if let Some(name) = name {
                write!(f, "\"{name}\": ")?;
            }
            value.write(f, depth + 1)?;
        }
        f.write_str(&line(depth))?;
        f.write_char(close)
    }
}

fn write_text(f: &mut Formatter, text: &str) -> fmt::Result {
    f.write_char('"')?;
    for character in text.chars() {
        match character {
            '"' => f.write_str("\\\"")?,
            '\\' => f.write_str("\\\\")?,
            '\n' => f.write_str("\\n")?,
            '\t' => f.write_str("\\t")?,
            _ if character.is_control() => write!(f, "\\u{:04x}", u32::from(character))?,
            _ => f.write_char(character)?,
        }
    }
    f.write_char('"')
}

impl Display for Json {
    fn fmt(&self, f: &mut Formatter) -> fmt::Result {
        self.write(f, 0)
    }
}
