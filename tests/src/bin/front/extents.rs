//! Where the texts of a picture end: inside it, and none over another. Widths are
//! those of DejaVu Sans Bold, the widest of the fonts that a picture is drawn with
//! on most systems, as a browser measures them.

use super::xml::{Element, Node};
use std::collections::BTreeMap;

/// In thousandths of the size, for the characters from the space on.
pub const BOLD: [u32; 95] = [
    348, 456, 521, 838, 696, 1002, 872, 306, 457, 457, 523, 838, 380, 415, 380, 365, 696, 696, 696,
    696, 696, 696, 696, 696, 696, 696, 400, 400, 838, 838, 838, 580, 1000, 774, 762, 734, 830, 683,
    683, 821, 837, 372, 372, 775, 637, 995, 837, 850, 733, 850, 770, 720, 682, 812, 774, 1103, 771,
    724, 725, 457, 365, 457, 838, 500, 500, 675, 716, 593, 716, 678, 435, 716, 712, 343, 343, 665,
    343, 1042, 712, 687, 716, 716, 493, 595, 478, 712, 652, 924, 645, 652, 582, 712, 365, 712, 838,
];

/// Letters behind the first 128 characters, of which the tests make words.
const FURTHER: [(char, u32); 10] = [
    ('é', 678),
    ('ü', 712),
    ('ñ', 712),
    ('ø', 687),
    ('ž', 582),
    ('ß', 719),
    ('Ω', 850),
    ('ж', 995),
    ('あ', 1000),
    ('朱', 1000),
];

/// How wide a text is at a size, in pixels.
pub fn width(text: &str, size: u32) -> i64 {
    let of = |character: char| {
        let place = u32::from(character).wrapping_sub(32) as usize;
        let further = FURTHER.iter().find(|(one, _)| *one == character);
        let known = BOLD.get(place).copied();
        known.or(further.map(|(_, width)| *width)).unwrap_or(1000)
    };
    i64::from((text.chars().map(of).sum::<u32>() * size).div_ceil(1000))
}

fn size_of(element: &Element) -> u32 {
    match element.attribute("class").unwrap_or_default() {
        "title" => 18,
        class if class.starts_with("head") => 15,
        _ => 13,
    }
}

/// A text by its base line: where it begins and ends.
type Lines = BTreeMap<i64, Vec<(i64, i64, String)>>;

/// Every text of a picture is inside it, and none is over another.
pub fn held(picture: &Element, (wide, _): (i64, i64)) -> Result<(), String> {
    let mut lines = Lines::new();
    gather(picture, (0, 0), &mut lines);
    for texts in lines.values_mut() {
        texts.sort();
        if let Some((_, end, text)) = texts.iter().find(|(_, end, _)| *end > wide) {
            return Err(format!("{text:?} ends at {end} of {wide}"));
        }
        for pair in texts.windows(2) {
            let ((_, end, first), (start, _, second)) = (&pair[0], &pair[1]);
            if end > start {
                return Err(format!(
                    "{first:?} ends at {end}, {second:?} begins at {start}"
                ));
            }
        }
    }
    Ok(())
}

/// The texts below an element that is moved by so much.
fn gather(element: &Element, (x, y): (i64, i64), lines: &mut Lines) {
    let number = |name: &str| {
        let value = element.attribute(name);
        value
            .and_then(|value| value.parse::<i64>().ok())
            .unwrap_or(0)
    };
    // The number of a step stands in its disc.
    let counts = element
        .attribute("class")
        .is_some_and(|class| class.starts_with("count"));
    if element.name == "text" && !counts {
        let start = x + number("x");
        let line = lines.entry(y + number("y")).or_default();
        line.push((start, start + length(element), element.text()));
        return;
    }
    let (by_x, by_y) = moved(element);
    for child in &element.children {
        if let Node::Element(child) = child {
            gather(child, (x + by_x, y + by_y), lines);
        }
    }
}

/// Of a text with parts, each with a class of its own and some room before it.
fn length(text: &Element) -> i64 {
    let parts = text.named("tspan");
    if parts.is_empty() {
        return width(&text.text(), size_of(text));
    }
    let part = |part: &&Element| {
        let apart = part
            .attribute("dx")
            .and_then(|value| value.parse::<i64>().ok());
        apart.unwrap_or(0) + width(&part.text(), size_of(part))
    };
    parts.iter().map(part).sum()
}

/// By how much an element moves what is in it.
pub fn moved(element: &Element) -> (i64, i64) {
    let moved = element.attribute("transform").and_then(|text| {
        let inner = text.strip_prefix("translate(")?.strip_suffix(')')?;
        let (x, y) = inner.split_once(' ')?;
        Some((x.parse().ok()?, y.parse().ok()?))
    });
    moved.unwrap_or((0, 0))
}
