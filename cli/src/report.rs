//! One HTML page with all that a verdict rests on: grid, rules, verdicts, steps and pictures. It needs nothing from
//! anywhere else, and every element is closed, so that any XML reader can read it too.

use crate::grid::legend;
use crate::house::House;
use crate::input::Content;
use crate::picture::canvas::{escaped, measure};
use crate::picture::panel;
use crate::story::{self, Jobs};
use crate::table::writer;
use crate::verdict::{left_out, text, Leak, Ruling, Verdict};
use crate::words::Words;
use std::fmt::Write;

/// More steps than these are a long list.
const LONG: usize = 12;
/// What a sheet of A4 or Letter has room for beside margins, in pixels.
const SHEET: usize = 630;
/// Padding and line of a cell.
const AROUND: usize = 27;

const STYLE: &str = "\
:root{color-scheme:light}\
body{margin:0;overflow-wrap:break-word;background:#f6f7f9;color:#1f2430;font:16px/1.5 system-ui,'Segoe UI','Helvetica Neue',Arial,'Noto Sans',sans-serif}\
main{max-width:62rem;margin:0 auto;padding:2rem 1.25rem 3rem}\
h1{font-size:1.7rem;margin:0 0 .25rem}h2{font-size:1.25rem;margin:0 0 .75rem}\
p{margin:.4rem 0}.note{color:#5b6270;font-size:.92rem}\
section{background:#fff;border:1px solid #dfe2e8;border-radius:10px;padding:1.1rem 1.25rem;margin:1.1rem 0}\
.wide{overflow-x:auto}.wide+.wide{margin-top:.9rem}table{border-collapse:collapse}\
th,td{text-align:left;vertical-align:top;padding:.4rem .8rem;border-bottom:1px solid #e6e8ee}\
thead th{border-bottom:2px solid #cfd4dd}.grid td,.grid th{border:1px solid #e6e8ee}.grid thead th,.grid tbody th{background:#f6f7f9}\
.grid th{white-space:nowrap}.grid td span{display:block;white-space:nowrap}\
.badge{display:inline-block;border-radius:99px;padding:.05rem .65rem;font-size:.82rem;font-weight:700;letter-spacing:.03em;white-space:nowrap}\
.is-safe{background:#e3f4e7;color:#14632b}.is-unsafe{background:#fbe3e1;color:#9a1c15}.is-refused{background:#fdf0d8;color:#7a4a00}\
code{font:.92em ui-monospace,'SF Mono',Menlo,Consolas,'DejaVu Sans Mono',monospace}\
ol{margin:.5rem 0;padding-left:2rem}li{margin:.25rem 0}li b{font-weight:600}\
.came{font-weight:600;color:#9a1c15}svg{display:block}\
@media print{body{background:#fff}section,tr{break-inside:avoid}.wide{overflow:visible}svg{max-width:100%;height:auto}\
.grid th,.grid td span{white-space:normal}tbody th,.grid th,.grid td span{overflow-wrap:anywhere}}";

/// The page of a judgement.
pub fn page(title: &str, content: &Content, verdicts: &[Verdict]) -> String {
    let Content { house, words } = content;
    let title = escaped(title);
    let version = env!("CARGO_PKG_VERSION");
    let mut page = format!(
        "<!doctype html>\n<html lang=\"en\">\n<head>\n<meta charset=\"utf-8\"/>\n\
         <meta name=\"viewport\" content=\"width=device-width, initial-scale=1\"/>\n\
         <title>{title}: verdicts</title>\n<style>{STYLE}</style>\n</head>\n<body>\n<main>\n\
         <h1>{title}</h1>\n\
         <p class=\"note\">Judged by tugcaphi {version}. Every verdict is the proved judge's.</p>\n"
    );
    let names = left_out(verdicts);
    if !names.is_empty() {
        let without = escaped(&text::without(words, names));
        let _ = writeln!(page, "<p><b>{without}</b></p>");
    }
    page += &section("Verdicts", &summaries(content, verdicts));
    for verdict in verdicts {
        if let Ruling::Unsafe(leak) = &verdict.ruling {
            page += &unsafe_section(content, verdict, leak);
        }
    }
    let judged = content.without(names).house;
    page += &section(
        "The matrix",
        &(matrix(&judged, words) + &carrying(house, words)),
    );
    page += &section("The rules", &rules(house, words));
    page += &section("How to read this", &reading(house, !names.is_empty()));
    page += "</main>\n</body>\n</html>\n";
    page
}

const READING: &str = "\
<p><b>Safe</b> means that no run of the rules, however long and with whatever new names, enters the right into a cell \
that lacks it. <b>Unsafe</b> means that some run does; the steps are one way of perhaps many. <b>Refused</b> means that \
the judge does not take the question as it stands.</p>\n\
<p>In a picture a number stands where that step enters a right or creates a name, grey where it deletes one; arrows come \
from what the step's conditions go by.</p>\n";

const SPARE: &str = "\
<p>A blank of a rule that no condition and no step names takes any number, which changes nothing; it is left out of the \
steps.</p>\n";

const PART: &str = "\
<p>Names that are left out are trusted: matrix, verdicts and pictures are of the table without their rows and columns. \
Safe then holds as long as no rule is run with one of them. Unsafe holds with them there too.</p>\n";

const CARRYING: &str = "\
<p>A condition of a rule holds by its own right and by every right in the cell that carries it. What a step enters or \
deletes, and what a verdict is about, is the right itself.</p>\n";

fn reading(house: &House, part: bool) -> String {
    let spare = house.rules.iter().any(|rule| !rule.spare().is_empty());
    let carrying = house.carries.any();
    let further = [(part, PART), (spare, SPARE), (carrying, CARRYING)];
    let further = further.iter().filter(|(told, _)| *told);
    further.fold(READING.to_string(), |page, (_, text)| page + text)
}

fn section(title: &str, body: &str) -> String {
    format!("<section>\n<h2>{title}</h2>\n{body}</section>\n")
}

fn badge(verdict: &Verdict) -> &'static str {
    match verdict.ruling {
        Ruling::Safe(_) => "<span class=\"badge is-safe\">SAFE</span>",
        Ruling::Unsafe(_) => "<span class=\"badge is-unsafe\">UNSAFE</span>",
        Ruling::Refused(_) => "<span class=\"badge is-refused\">REFUSED</span>",
    }
}

fn summaries(content: &Content, verdicts: &[Verdict]) -> String {
    let mut table = String::from(
        "<div class=\"wide\"><table>\n<thead><tr><th>right</th><th>verdict</th><th>that is</th></tr></thead>\n<tbody>\n",
    );
    for verdict in verdicts {
        let right = escaped(&content.words.right_alone(usize::from(verdict.right)));
        let summary = text::summary(content, verdict);
        let summary = escaped(summary.trim_end_matches(':'));
        let badge = badge(verdict);
        let _ = writeln!(
            table,
            "<tr><th>{right}</th><td>{badge}</td><td>{summary}</td></tr>"
        );
    }
    table + "</tbody>\n</table></div>\n"
}

/// The steps of an unsafe right and its picture; before a long list the picture comes first.
fn unsafe_section(content: &Content, verdict: &Verdict, leak: &Leak) -> String {
    let words = &content.words;
    let right = words.right_alone(usize::from(verdict.right));
    let came = format!(
        "<p class=\"came\">{}</p>\n",
        escaped(&text::outcome(words, leak))
    );
    let title = format!("how {right} comes into a cell");
    let drawn = panel::panel(content, verdict, false).element(&title);
    let picture = format!("<div class=\"wide\">{drawn}</div>\n");
    let steps = steps(content, leak);
    let body = match leak.steps.len() > LONG {
        true => format!("{came}{picture}{steps}"),
        false => format!("{steps}{came}{picture}"),
    };
    section(&format!("{} {}", escaped(&right), badge(verdict)), &body)
}

fn steps(content: &Content, leak: &Leak) -> String {
    let Content { house, words } = content;
    let mut list = String::from("<ol>\n");
    for done in &leak.steps {
        let call = escaped(&story::call(words, &house.rules, done.step, Jobs::LeftOut));
        let sentence = escaped(&story::sentence(words, done));
        let _ = writeln!(list, "<li><b>{call}</b> {sentence}</li>");
    }
    list + "</ol>\n"
}

/// The matrix in grids, one below the other: each has as many columns as fit on a sheet of paper.
fn matrix(house: &House, words: &Words) -> String {
    let names = house.matrix.names();
    if names.is_empty() {
        return "<p>No names.</p>\n".to_string();
    }
    let subjects = house.matrix.subjects();
    let heads = subjects.iter().map(|&name| words.name_alone(name));
    let room = SHEET.saturating_sub(wide(heads));
    let column = |name: usize| {
        let rights = subjects
            .iter()
            .flat_map(|&s| house.matrix.cell(s, name).iter());
        let texts = rights.map(|right| words.right_alone(right));
        wide(texts.chain([words.name_alone(name)]))
    };
    let mut grids = String::new();
    let mut rest = names.as_slice();
    while !rest.is_empty() {
        let mut used = 0;
        let fitting = rest.iter().take_while(|&&name| {
            used += column(name);
            used <= room
        });
        let (columns, after) = rest.split_at(fitting.count().max(1));
        grids += &grid(house, words, columns);
        rest = after;
    }
    grids
}

/// What rights carry, a paragraph each.
fn carrying(house: &House, words: &Words) -> String {
    let lines = legend(&house.carries, words, None);
    let paragraph = |line: &String| format!("<p>{}</p>\n", escaped(line));
    lines.iter().map(paragraph).collect()
}

/// What a column of these texts takes, in pixels.
fn wide(texts: impl Iterator<Item = String>) -> usize {
    let widths = texts.map(|text| measure(&text, 16));
    widths.max().unwrap_or(0) + AROUND
}

/// Some columns of the matrix.
fn grid(house: &House, words: &Words, names: &[usize]) -> String {
    let mut table =
        String::from("<div class=\"wide\"><table class=\"grid\">\n<thead><tr><th></th>");
    for &name in names {
        let _ = write!(table, "<th>{}</th>", escaped(&words.name_alone(name)));
    }
    table += "</tr></thead>\n<tbody>\n";
    for subject in house.matrix.subjects() {
        let _ = write!(
            table,
            "<tr><th>{}</th>",
            escaped(&words.name_alone(subject))
        );
        for &object in names {
            let rights = house.matrix.cell(subject, object).iter();
            let spans =
                rights.map(|right| format!("<span>{}</span>", escaped(&words.right_alone(right))));
            let _ = write!(table, "<td>{}</td>", spans.collect::<String>());
        }
        table += "</tr>\n";
    }
    table + "</tbody>\n</table></div>\n"
}

fn rules(house: &House, words: &Words) -> String {
    if house.rules.is_empty() {
        return "<p>No rules.</p>\n".to_string();
    }
    let mut list = String::from("<ul>\n");
    for (rule, rule_words) in house.rules.iter().zip(&words.rules) {
        let line = escaped(&writer::rule_line(rule, rule_words, words));
        let _ = writeln!(list, "<li><code>{line}</code></li>");
    }
    list + "</ul>\n"
}
