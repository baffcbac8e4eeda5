//! A strict reader of XML, as much of it as SVG and a closed HTML page need.

pub struct Element {
    pub name: String,
    pub attributes: Vec<(String, String)>,
    pub children: Vec<Node>,
}

pub enum Node {
    Element(Element),
    Text(String),
}

impl Element {
    pub fn attribute(&self, name: &str) -> Option<&str> {
        let found = self.attributes.iter().find(|(key, _)| key == name);
        found.map(|(_, value)| value.as_str())
    }

    /// The element and all below it.
    pub fn all(&self) -> Vec<&Element> {
        let mut all = vec![self];
        for child in &self.children {
            if let Node::Element(element) = child {
                all.extend(element.all());
            }
        }
        all
    }

    pub fn named(&self, name: &str) -> Vec<&Element> {
        self.all()
            .into_iter()
            .filter(|element| element.name == name)
            .collect()
    }

    /// All text below the element.
    pub fn text(&self) -> String {
        let texts = self.children.iter().map(|child| match child {
            Node::Element(element) => element.text(),
            Node::Text(text) => text.clone(),
        });
        texts.collect()
    }
}

/// The one element of a document, after a declaration or a doctype.
pub fn parse(text: &str) -> Result<Element, String> {
    let mut rest = text;
    for begin in ["<?xml", "<!doctype"] {
        if rest.starts_with(begin) {
            rest = rest
                .split_once('>')
                .ok_or("no end of the first line")?
                .1
                .trim_start();
        }
    }
    let mut reader = Reader { rest };
    let element = reader.element()?;
    match reader.rest.trim() {
        "" => Ok(element),
        rest => Err(format!("something after the document: {rest:.30}")),
    }
}

struct Reader<'a> {
    rest: &'a str,
}

impl Reader<'_> {
    fn element(&mut self) -> Result<Element, String> {
        self.expect("<")?;
        let name = self.name()?;
        let mut attributes: Vec<(String, String)> = Vec::new();
        loop {
            let spaced = self.rest.starts_with(char::is_whitespace);
            self.rest = self.rest.trim_start();
            if self.passes("/>") {
                let children = Vec::new();
                return Ok(Element {
                    name,
                    attributes,
                    children,
                });
            }
            if self.passes(">") {
                break;
            }
            let attribute = self.attribute()?;
            if !spaced || attributes.iter().any(|(key, _)| *key == attribute.0) {
                return Err(format!("attribute {} of {name}", attribute.0));
            }
            attributes.push(attribute);
        }
        let children = self.children(&name)?;
        Ok(Element {
            name,
            attributes,
            children,
        })
    }

    fn children(&mut self, name: &str) -> Result<Vec<Node>, String> {
        let mut children = Vec::new();
        loop {
            if self.passes("</") {
                let closed = self.name()?;
                self.expect(">")?;
                return match closed == name {
                    true => Ok(children),
                    false => Err(format!("{name} is closed by {closed}")),
                };
            }
            if self.rest.starts_with('<') {
                children.push(Node::Element(self.element()?));
                continue;
            }
            let end = self
                .rest
                .find('<')
                .ok_or_else(|| format!("{name} is not closed"))?;
            let (text, rest) = self.rest.split_at(end);
            self.rest = rest;
            children.push(Node::Text(unescaped(text)?));
        }
    }

    fn attribute(&mut self) -> Result<(String, String), String> {
        let name = self.name()?;
        self.expect("=")?;
        self.expect("\"")?;
        let (value, rest) = self.rest.split_once('"').ok_or("an open attribute")?;
        self.rest = rest;
        match value.contains('<') {
            true => Err(format!("< in the attribute {name}")),
            false => Ok((name, unescaped(value)?)),
        }
    }

    fn name(&mut self) -> Result<String, String> {
        let goes_on = |c: char| c.is_ascii_alphanumeric() || c == '-' || c == ':';
        let end = self.rest.find(|c| !goes_on(c)).unwrap_or(self.rest.len());
        let (name, rest) = self.rest.split_at(end);
        self.rest = rest;
        match name.starts_with(|c: char| c.is_ascii_alphabetic()) {
            true => Ok(name.to_string()),
            false => Err(format!("no name: {:.20}", self.rest)),
        }
    }

    fn passes(&mut self, text: &str) -> bool {
        match self.rest.strip_prefix(text) {
            Some(rest) => {
                self.rest = rest;
                true
            }
            None => false,
        }
    }

    fn expect(&mut self, text: &str) -> Result<(), String> {
        match self.passes(text) {
            true => Ok(()),
            false => Err(format!("no {text} at: {:.30}", self.rest)),
        }
    }
}

fn unescaped(text: &str) -> Result<String, String> {
    let mut unescaped = String::new();
    let mut rest = text;
    while let Some((before, after)) = rest.split_once('&') {
        unescaped.push_str(before);
        let (entity, after) = after.split_once(';').ok_or("a bare &")?;
        unescaped.push(match entity {
            "amp" => '&',
            "lt" => '<',
            "gt" => '>',
            "quot" => '"',
            "#39" => '\'',
            _ => return Err(format!("entity {entity}")),
        });
        rest = after;
    }
    unescaped.push_str(rest);
    match unescaped.contains('\u{0}') {
        true => Err("a character that XML does not have".to_string()),
        false => Ok(unescaped),
    }
}
