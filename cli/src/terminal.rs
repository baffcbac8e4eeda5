//! Colour, the width of the terminal, and the width of a text on it.

use std::env;
use std::io::IsTerminal;

/// Colours, or none where nobody would see them.
#[derive(Clone, Copy, Debug)]
pub struct Style {
    colour: bool,
}

impl Style {
    pub const PLAIN: Style = Style { colour: false };

    /// Colour on a terminal, unless the user has said that there should be none.
    pub fn of(stream: &impl IsTerminal) -> Style {
        let wanted = env::var_os("NO_COLOR").is_none_or(|value| value.is_empty());
        let able = env::var_os("TERM").is_some_and(|term| term != "dumb");
        Style {
            colour: stream.is_terminal() && wanted && able,
        }
    }

    fn with(self, code: &str, text: &str) -> String {
        if self.colour && !text.is_empty() {
            format!("\x1b[{code}m{text}\x1b[0m")
        } else {
            text.to_string()
        }
    }

    pub fn good(self, text: &str) -> String {
        self.with("1;32", text)
    }

    pub fn bad(self, text: &str) -> String {
        self.with("1;31", text)
    }

    pub fn warn(self, text: &str) -> String {
        self.with("1;33", text)
    }

    pub fn strong(self, text: &str) -> String {
        self.with("1", text)
    }

    pub fn faint(self, text: &str) -> String {
        self.with("2", text)
    }
}

/// How many columns a text takes on a terminal.
pub fn width(text: &str) -> usize {
    text.chars().map(columns_of).sum()
}

/// Letters of East Asian scripts and pictures take two columns, accents none.
fn columns_of(character: char) -> usize {
    match u32::from(character) {
        0x0300..=0x036F | 0x200B..=0x200F | 0x3099..=0x309A | 0xFE00..=0xFE0F => 0,
        0x1100..=0x115F | 0x2E80..=0xA4CF | 0xAC00..=0xD7A3 | 0xF900..=0xFAFF => 2,
        0xFE30..=0xFE6F | 0xFF00..=0xFF60 | 0xFFE0..=0xFFE6 | 0x1F300..=0x1FAFF => 2,
        0x20000..=0x3FFFD => 2,
        _ => 1,
    }
}

/// A text filled up with spaces to a width.
pub fn padded(text: &str, to: usize) -> String {
    format!("{text}{}", " ".repeat(to.saturating_sub(width(text))))
}

/// The columns of the terminal that standard output is; none where it is no terminal.
pub fn columns() -> Option<usize> {
    if !std::io::stdout().is_terminal() {
        return None;
    }
    let told = env::var("COLUMNS").ok().and_then(|text| text.parse().ok());
    told.or_else(window)
        .filter(|&columns| columns > 0)
        .or(Some(80))
}

#[cfg(any(target_os = "linux", target_os = "macos"))]
fn window() -> Option<usize> {
    use std::ffi::{c_int, c_ulong, c_ushort};

    extern "C" {
        fn ioctl(descriptor: c_int, request: c_ulong, ...) -> c_int;
    }
    #[cfg(target_os = "linux")]
    const WINDOW_SIZE: c_ulong = 0x5413;
    #[cfg(target_os = "macos")]
    const WINDOW_SIZE: c_ulong = 0x4008_7468;

    // Rows, columns and two sizes in pixels.
    let mut size: [c_ushort; 4] = [0; 4];
    // SAFETY: the request writes four short numbers, for which there is room.
    let answer = unsafe { ioctl(1, WINDOW_SIZE, size.as_mut_ptr()) };
    (answer == 0).then_some(usize::from(size[1]))
}

#[cfg(not(any(target_os = "linux", target_os = "macos")))]
fn window() -> Option<usize> {
    None
}
