//! Shapes and texts of an SVG drawing.

use crate::terminal;
use std::fmt::Write;

/// A drawing: its size in pixels and its elements.
#[derive(Default)]
pub struct Canvas {
    pub width: usize,
    pub height: usize,
    body: String,
}

/// What the classes look like; colours are told by shape or number too.
const STYLE: &str = "\
text{font-family:system-ui,'Segoe UI','Helvetica Neue',Arial,'Noto Sans',sans-serif;font-size:13px;fill:#1f2430}\
.title{font-size:18px;font-weight:600}.head{font-size:15px;font-weight:600}\
.name{font-weight:600}.quiet{fill:#6b7280}.old{fill:#3b4252}.gone{fill:#8a8f9c;text-decoration:line-through}\
.good{fill:#1a7f37;font-weight:600}.bad{fill:#b3261e;font-weight:600}.warn{fill:#8a5300;font-weight:600}\
.step{fill:#1f4fbf;font-weight:600}.count{font-size:11px;font-weight:600;fill:#fff;text-anchor:middle}.small{font-size:8.5px}.tiny{font-size:6.5px}\
.card{fill:#fff;stroke:#d5d8df}.line{stroke:#e3e6ec}.stripe{fill:#f6f7f9}.new{fill:#eef3ff;stroke:#9db4ec;stroke-dasharray:4 3}\
.hit{fill:#fdeceb;stroke:#e0a09b}.held{fill:#e9f6ec;stroke:#a5d3b0}\
.dot{fill:#1f4fbf}.dot-bad{fill:#b3261e}.dot-gone{fill:#8a8f9c}\
.arrow{fill:none;stroke:#1f4fbf;stroke-width:1.4;opacity:.5}.arrow-bad{fill:none;stroke:#b3261e;stroke-width:1.4;opacity:.6}\
.tip{fill:#1f4fbf;opacity:.7}.tip-bad{fill:#b3261e;opacity:.8}";

impl Canvas {
    pub fn new(width: usize, height: usize) -> Canvas {
        Canvas {
            width,
            height,
            body: String::new(),
        }
    }

    pub fn text(&mut self, x: usize, y: usize, class: &str, text: &str) {
        let text = escaped(text);
        let _ = writeln!(
            self.body,
            r#"<text x="{x}" y="{y}" class="{class}">{text}</text>"#
        );
    }

    /// A rectangle with rounded corners.
    pub fn rect(&mut self, (x, y): (usize, usize), (width, height): (usize, usize), class: &str) {
        let _ = writeln!(
            self.body,
            r#"<rect x="{x}" y="{y}" width="{width}" height="{height}" rx="6" class="{class}"/>"#
        );
    }

    pub fn line(&mut self, (x, y): (usize, usize), (to_x, to_y): (usize, usize)) {
        let _ = writeln!(
            self.body,
            r#"<line x1="{x}" y1="{y}" x2="{to_x}" y2="{to_y}" class="line"/>"#
        );
    }

    /// A number in a disc, the disc's middle at x and y.
    pub fn count(&mut self, x: usize, y: usize, class: &str, number: usize) {
        let number = number.to_string();
        let size = match number.len() {
            1 | 2 => "count",
            3 => "count small",
            _ => "count tiny",
        };
        let _ = writeln!(
            self.body,
            r#"<circle cx="{x}" cy="{y}" r="9" class="{class}"/>"#
        );
        self.text(x, y + 4, size, &number);
    }

    /// Texts behind each other, each with its class; how wide they are is the reader's business.
    pub fn texts(&mut self, x: usize, y: usize, texts: &[(&str, &str)]) {
        let _ = write!(self.body, r#"<text x="{x}" y="{y}">"#);
        for (i, (class, text)) in texts.iter().enumerate() {
            let (apart, text) = (if i == 0 { 0 } else { 12 }, escaped(text));
            let _ = write!(
                self.body,
                r#"<tspan dx="{apart}" class="{class}">{text}</tspan>"#
            );
        }
        let _ = writeln!(self.body, "</text>");
    }

    /// A curve with a tip. It leaves and arrives horizontally: `leave` and `arrive` say how far it goes on to the right
    /// before it turns, or to the left if they are negative.
    pub fn arrow(
        &mut self,
        from: (i64, i64),
        to: (i64, i64),
        (leave, arrive): (i64, i64),
        class: &str,
    ) {
        let back = 7 * arrive.signum();
        let (x, y) = from;
        let (tip, height) = to;
        let (end, out, into) = (tip - back, x + leave, tip - back - arrive);
        let _ = writeln!(
            self.body,
            r#"<path d="M {x} {y} C {out} {y} {into} {height} {end} {height}" class="arrow{class}"/>"#
        );
        let (above, below) = (height - 4, height + 4);
        let _ = writeln!(
            self.body,
            r#"<path d="M {end} {above} L {tip} {height} L {end} {below} Z" class="tip{class}"/>"#
        );
    }

    /// Another drawing, moved.
    pub fn place(&mut self, x: usize, y: usize, other: &Canvas) {
        let body = &other.body;
        let _ = writeln!(
            self.body,
            "<g transform=\"translate({x} {y})\">\n{body}</g>"
        );
    }

    /// A whole SVG document.
    pub fn document(&self, title: &str) -> String {
        format!(
            "<?xml version=\"1.0\" encoding=\"UTF-8\"?>\n{}\n",
            self.element(title)
        )
    }

    /// An SVG element, to stand in a page.
    pub fn element(&self, title: &str) -> String {
        let (width, height, body) = (self.width, self.height, &self.body);
        let title = escaped(title);
        format!(
            "<svg xmlns=\"http://www.w3.org/2000/svg\" width=\"{width}\" height=\"{height}\" \
             viewBox=\"0 0 {width} {height}\" role=\"img\">\n<title>{title}</title>\n\
             <style>{STYLE}</style>\n\
             <rect width=\"{width}\" height=\"{height}\" fill=\"#fff\"/>\n{body}</svg>"
        )
    }
}

/// A text as it stands in XML and HTML.
pub fn escaped(text: &str) -> String {
    let mut escaped = String::new();
    for character in text.chars() {
        match character {
            '&' => escaped.push_str("&amp;"),
            '<' => escaped.push_str("&lt;"),
            '>' => escaped.push_str("&gt;"),
            '"' => escaped.push_str("&quot;"),
            '\'' => escaped.push_str("&#39;"),
            // XML has no such characters, not even escaped.
            _ if character.is_control() => escaped.push('\u{FFFD}'),
            _ => escaped.push(character),
        }
    }
    escaped
}

/// How many pixels a text takes at a size, in bold letters of the widest of the fonts above; rather more than less.
pub fn measure(text: &str, size: usize) -> usize {
    let total: usize = text.chars().map(hundredths).sum();
    (total * size).div_ceil(100)
}

/// What a character takes of the size.
fn hundredths(character: char) -> usize {
    match character {
        'i' | 'j' | 'l' | 'I' | 'J' | ' ' | '.' | ',' | '\'' | '|' | '/' | '\\' => 38,
        'f' | 'r' | 't' | '-' | '(' | ')' | '[' | ']' | '!' | ':' | ';' => 50,
        'm' | 'w' | 'M' | '%' | '@' => 105,
        'W' => 111,
        '&' | '#' | '+' | '<' | '=' | '>' | '^' | '~' => 88,
        'D' | 'G' | 'H' | 'N' | 'O' | 'Q' | 'U' => 88,
        'A'..='Z' => 78,
        _ if character.is_ascii() => 72,
        'Æ' | 'æ' | 'Œ' | 'œ' => 120,
        // Latin letters with accents.
        '\u{C0}'..='\u{17F}' => 90,
        _ => match terminal::width(character.encode_utf8(&mut [0; 4])) {
            0 => 0,
            1 => 135,
            _ => 140,
        },
    }
}
