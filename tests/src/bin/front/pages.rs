//! Pictures and pages: well-formed, everything inside, every step in words, and
//! nothing from anywhere else.

use super::reading::Reading;
use super::stories::{contents, single};
use super::wording::Wording;
use super::xml::{parse, Element, Node};
use super::{extents, grids};
use reference::generate::{chain, large, lively, small};
use reference::random::Random;
use reference::report::Report;
use std::fs;
use tugcaphi::input::Content;
use tugcaphi::picture::canvas::measure;
use tugcaphi::story::Jobs;
use tugcaphi::trace::Step;
use tugcaphi::verdict::{judge, Ruling, Verdict};
use tugcaphi::{picture, report, story};

pub fn run(report: &mut Report, seed: u64) {
    let cases = cases(seed);
    report.group(
        "no letter is wider than a picture takes it for",
        95,
        |group| {
            for (character, width) in (' '..='~').zip(extents::BOLD) {
                let taken = measure(&character.to_string(), 1_000);
                let fits = (width as usize..=1_500.min(2 * width as usize)).contains(&taken);
                group.input(fits, || format!("{character:?}: {taken} for {width}"));
            }
        },
    );
    report.group(
        "pictures are well-formed and tell every step",
        135,
        |group| {
            for (content, verdicts) in &cases {
                let svg = picture::svg("a <table> & \"more\"", content, verdicts);
                let said = picture_held(&svg, content, verdicts);
                group.input(said.is_ok(), || format!("{said:?}"));
            }
        },
    );
    report.group("pages are well-formed and tell everything", 135, |group| {
        for (content, verdicts) in &cases {
            let page = report::page("a <table> & \"more\"", content, verdicts);
            let said = page_held(&page, content, content, verdicts);
            group.input(said.is_ok(), || format!("{said:?}"));
        }
    });
    report.group("spare blanks in pictures and pages", 3, |group| {
        let (content, verdicts) = judged(SPARE.as_bytes(), &[]);
        let svg = picture::svg("spare", &content, &verdicts[1..]);
        // Of so many names only those that take part are drawn; the judge's 0 is none.
        let drawn = |name: &str| svg.contains(&format!(">{name}<"));
        group.input(drawn("press9") && !drawn("press0"), || svg.clone());
        let page = report::page("spare", &content, &verdicts);
        let told = page.contains("<b>order (press9)</b>") && page.contains(LEFT_OUT);
        group.input(told, || page.clone());
        let (content, verdicts) = judged(SPARE.replace("job, ", "").as_bytes(), &[]);
        let page = report::page("spare", &content, &verdicts);
        group.input(!page.contains(LEFT_OUT), || page.clone());
    });
}

/// Rules with a spare blank, on more names than a picture shows unasked.
const SPARE: &str =
    "table 1\nrights own print\nsubjects press0..press14\ncell (press9, press9): own\n\
    rule order (job, a): if own in (a, a) enter print into (a, a)\n";
const LEFT_OUT: &str = "it is left out of the steps";
const CARRYING: &str = "every right in the cell that carries it";

/// The example tables, random ones, and such with long words.
fn cases(seed: u64) -> Vec<(Content, Vec<Verdict>)> {
    let mut cases = examples();
    let mut random = Random::new(seed ^ 0x5F6);
    for i in 0..120 {
        let draft = single(&mut random, |random| match i % 4 {
            0 => large(random).0,
            1 => chain(random).0,
            2 => small(random),
            _ => lively(random),
        });
        let wording = Wording::any(&mut random, &draft);
        cases.push(contents(&draft.file(), &wording, &[]));
    }
    cases.extend(LETTERS.chars().map(long_words));
    cases
}

/// Letters of which the longest words are made.
const LETTERS: &str = "OWmr@#0жあ";

/// A table whose words are as long as they may be.
fn long_words(letter: char) -> (Content, Vec<Verdict>) {
    let word = |first: char| format!("\"{first}{}\"", letter.to_string().repeat(63));
    let [own, read, ada, ben, ink, lend] = ['a', 'b', 'c', 'd', 'e', 'f'].map(word);
    let text = format!(
        "table 1\nrights {own} {read}\nsubjects {ada} {ben}\nobjects {ink}\ncell ({ada}, {ink}): {own} {read}\n\
         cell ({ada}, {ben}): {own}\nrule {lend} (x, y, z): if {own} in (x, z) enter {read} into (y, z)\n"
    );
    judged(text.as_bytes(), &[])
}

/// A table with the verdicts on all its rights without these names.
pub fn judged(text: &[u8], without: &[u8]) -> (Content, Vec<Verdict>) {
    let table = tugcaphi::table::read(text).expect("a table of ours");
    let file = tugcaphi::house::encode::encode(&table.house);
    let content = Content {
        house: table.house,
        words: table.words,
    };
    let rights: Vec<u8> = (0..file[0]).collect();
    let verdicts = judge(&file, &content.house, &rights, without);
    (content, verdicts.expect("steps that can be done"))
}

fn examples() -> Vec<(Content, Vec<Verdict>)> {
    let entries = fs::read_dir("../tables").expect("the example tables");
    let paths = entries.filter_map(|entry| entry.ok().map(|entry| entry.path()));
    let mut cases = Vec::new();
    for path in paths.filter(|path| path.extension().is_some_and(|e| e == "table")) {
        cases.push(judged(&fs::read(&path).expect("an example table"), &[]));
    }
    cases
}

pub fn picture_held(svg: &str, content: &Content, verdicts: &[Verdict]) -> Result<(), String> {
    let root = parse(svg)?;
    is(root.name == "svg", || "no svg".into())?;
    let size = |name: &str| root.attribute(name).and_then(|value| value.parse().ok());
    let (width, height): (i64, i64) = size("width").zip(size("height")).ok_or("no size")?;
    let view = format!("0 0 {width} {height}");
    is(root.attribute("viewBox") == Some(&view), || {
        "no viewBox".into()
    })?;
    inside(&root, (0, 0), (width, height))?;
    extents::held(&root, (width, height))?;
    let texts: Vec<String> = root.named("tspan").iter().map(|e| e.text()).collect();
    for verdict in verdicts {
        let right = content.words.right_alone(usize::from(verdict.right));
        is(texts.contains(&right), || {
            format!("the right {right} is not there")
        })?;
        if let Ruling::Unsafe(leak) = &verdict.ruling {
            for done in leak.steps.iter().take(30).chain(leak.steps.last()) {
                let call = called(content, done.step);
                is(texts.contains(&call), || {
                    format!("the step {call} is not there")
                })?;
            }
        }
    }
    let quiet = root.named("text").into_iter();
    let quiet = quiet.filter(|text| text.attribute("class") == Some("quiet"));
    legend_held(quiet, content)?;
    local(&root)
}

/// What rights carry is told once, and all of it.
fn legend_held<'a>(
    texts: impl Iterator<Item = &'a Element>,
    content: &Content,
) -> Result<(), String> {
    let reading = Reading::new(&content.words);
    let texts: Vec<String> = texts.map(|text| text.text()).collect();
    let told = texts.iter().map(String::as_str);
    let told = told.filter(|text| reading.tells_carrying(text));
    let sets = content.house.carries.sets().iter();
    let carries: Vec<u16> = sets.map(|set| set.0).collect();
    reading.legend(told, &carries)
}

/// A step of the judge's in words.
fn called(content: &Content, step: Step) -> String {
    story::call(&content.words, &content.house.rules, step, Jobs::LeftOut)
}

/// Every shape and every beginning of a text lies inside the picture.
fn inside(element: &Element, (x, y): (i64, i64), size: (i64, i64)) -> Result<(), String> {
    for (corner_x, corner_y) in corners(element) {
        let (at_x, at_y) = (x + corner_x, y + corner_y);
        let in_it = (0..=size.0).contains(&at_x) && (0..=size.1).contains(&at_y);
        is(in_it, || {
            format!("a {} at {at_x} {at_y} of {size:?}", element.name)
        })?;
    }
    let (by_x, by_y) = extents::moved(element);
    for child in &element.children {
        if let Node::Element(child) = child {
            inside(child, (x + by_x, y + by_y), size)?;
        }
    }
    Ok(())
}

/// The outermost points of a shape.
fn corners(element: &Element) -> Vec<(i64, i64)> {
    let number = |name: &str| -> i64 {
        let value = element.attribute(name);
        value.and_then(|value| value.parse().ok()).unwrap_or(0)
    };
    let (x, y, radius) = (number("x"), number("y"), number("r"));
    let (middle_x, middle_y) = (number("cx"), number("cy"));
    match element.name.as_str() {
        "rect" => vec![(x, y), (x + number("width"), y + number("height"))],
        "circle" => vec![
            (middle_x - radius, middle_y - radius),
            (middle_x + radius, middle_y + radius),
        ],
        "text" => vec![(x, y)],
        "line" => vec![(number("x1"), number("y1")), (number("x2"), number("y2"))],
        _ => Vec::new(),
    }
}

/// `shown` is what the page's matrix has to be.
pub fn page_held(
    page: &str,
    content: &Content,
    shown: &Content,
    verdicts: &[Verdict],
) -> Result<(), String> {
    let root = parse(page)?;
    let begins = page.starts_with("<!doctype html>");
    is(root.name == "html" && begins, || "no page".into())?;
    let titles = root.named("title");
    let titled = |title: &&Element| title.text().contains("a <table> & \"more\"");
    is(titles.iter().any(titled), || "another title".into())?;
    for picture in root.named("svg") {
        let size = |name: &str| picture.attribute(name).and_then(|value| value.parse().ok());
        extents::held(picture, size("width").zip(size("height")).ok_or("no size")?)?;
    }
    let mut pictures = 0;
    for verdict in verdicts {
        verdict_held(&root, content, verdict)?;
        pictures += usize::from(matches!(verdict.ruling, Ruling::Unsafe(_)));
    }
    grids::held(&root, shown)?;
    legend_held(root.named("p").into_iter(), content)?;
    is(
        page.contains(CARRYING) == content.house.carries.any(),
        || "how carrying is to be read".into(),
    )?;
    is(root.named("svg").len() == pictures, || {
        "a picture for each unsafe right".into()
    })?;
    local(&root)
}

/// A verdict has its row, and an unsafe one all its steps.
fn verdict_held(root: &Element, content: &Content, verdict: &Verdict) -> Result<(), String> {
    let words = &content.words;
    let right = words.right_alone(usize::from(verdict.right));
    let (word, steps) = match &verdict.ruling {
        Ruling::Safe(_) => ("SAFE", &[][..]),
        Ruling::Unsafe(leak) => ("UNSAFE", leak.steps.as_slice()),
        Ruling::Refused(_) => ("REFUSED", &[][..]),
    };
    let begin = format!("{right}{word}");
    let rows = root.named("tr");
    let row = |row: &&Element| row.text().starts_with(&begin);
    is(rows.iter().any(row), || format!("no row {begin}"))?;
    let told: Vec<String> = root.named("li").iter().map(|item| item.text()).collect();
    for done in steps {
        let call = called(content, done.step);
        let line = format!("{call} {}", story::sentence(words, done));
        is(told.contains(&line), || format!("no step {line}"))?;
    }
    Ok(())
}

/// Nothing is fetched from elsewhere and nothing runs.
fn local(root: &Element) -> Result<(), String> {
    for element in root.all() {
        let fetching = [
            "script", "link", "img", "image", "use", "iframe", "object", "a",
        ];
        is(!fetching.contains(&element.name.as_str()), || {
            format!("a {}", element.name)
        })?;
        for (name, _) in &element.attributes {
            let running = name.starts_with("on") || name.contains("href") || name == "src";
            is(!running, || format!("the attribute {name}"))?;
        }
        let style = element.name == "style";
        let text = if style { element.text() } else { String::new() };
        is(!text.contains("url(") && !text.contains("@import"), || {
            "a style that fetches".into()
        })?;
    }
    Ok(())
}

fn is(good: bool, wrong: impl FnOnce() -> String) -> Result<(), String> {
    match good {
        true => Ok(()),
        false => Err(wrong()),
    }
}
