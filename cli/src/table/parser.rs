//! From the text of a table to its statements.

use super::cursor::Cursor;
use super::lexer::Token;
use super::lists;
use super::mistake::{Code, Flaw};
use super::rules;
use super::source::{first_line as first_line_flaw, Source, Span};
use super::syntax::Statement;
use super::word::nearest;

pub const VERSION: usize = 1;

/// The order of statements: rights, then what they carry, then names, then cells and rules in any order.
#[derive(Clone, Copy, PartialEq, Eq, PartialOrd, Ord)]
enum Part {
    Rights,
    Carries,
    Names,
    CellsAndRules,
}

const STATEMENTS: [(&str, Part); 6] = [
    ("rights", Part::Rights),
    ("carries", Part::Carries),
    ("subjects", Part::Names),
    ("objects", Part::Names),
    ("cell", Part::CellsAndRules),
    ("rule", Part::CellsAndRules),
];

pub fn parse(source: &Source) -> Result<Vec<Statement>, Flaw> {
    first_line(source)?;
    let mut statements = Vec::new();
    let mut part = Part::Rights;
    for lines in grouped(source)?.iter().skip(1) {
        let begins = begin(source, lines)?;
        in_order(part, begins, statements.is_empty(), lines[0])?;
        part = begins.1;
        let read = statement(source, lines, begins.0);
        statements.push(read.map_err(|flaw| flaw.form(form(begins.0)))?);
    }
    if statements.is_empty() {
        let end = source.text.len();
        return Err(Flaw::new(Code::NoRights, Span::new(end, end))
            .found("the table ends without rights")
            .expected("`rights` and a list of words"));
    }
    Ok(statements)
}

/// The first line is `table 1`.
fn first_line(source: &Source) -> Result<(), Flaw> {
    let line = source.lines()[0];
    let mut cursor = Cursor::new(source, &[line]);
    if cursor.take()?.token != Token::Own("table") {
        return Err(first_line_flaw(line));
    }
    let (version, span) = cursor.number()?;
    if version != VERSION {
        return Err(Flaw::new(Code::Version, span)
            .found(format!("a table of version {version}"))
            .expected(format!("version {VERSION}, which this program reads")));
    }
    end(&mut cursor)
}

/// The statements, each by its lines: an indented line goes on with a rule.
fn grouped(source: &Source) -> Result<Vec<Vec<Span>>, Flaw> {
    let mut groups: Vec<Vec<Span>> = Vec::new();
    for &line in source.lines() {
        let text = source.slice(line);
        let body = text.trim_start();
        if body.is_empty() || body.starts_with('#') {
            continue;
        }
        if body.len() == text.len() {
            groups.push(vec![line]);
            continue;
        }
        let start = line.end - body.len();
        match groups.last_mut() {
            Some(group) if source.slice(group[0]).starts_with("rule") => group.push(line),
            _ => {
                return Err(Flaw::new(Code::Indented, Span::new(line.start, start))
                    .found("an indented line with no rule before it to go on with")
                    .expected("a statement at the beginning of its line"))
            }
        }
    }
    Ok(groups)
}

/// Which statement begins here.
fn begin(source: &Source, lines: &[Span]) -> Result<(&'static str, Part), Flaw> {
    let lexeme = Cursor::new(source, lines).take()?;
    let text = source.slice(lexeme.span);
    if let Some(begins) = STATEMENTS.iter().find(|(word, _)| *word == text) {
        return Ok(*begins);
    }
    let words = STATEMENTS.iter().map(|(word, _)| *word);
    let hint = nearest(text, words).map(|word| format!("did you mean `{word}`?"));
    let mut flaw = Flaw::new(Code::Statement, lexeme.span)
        .found(format!("no statement begins with `{text}`"))
        .expected("rights, carries, subjects, objects, cell or rule");
    if matches!(
        lexeme.token,
        Token::Own("if" | "and" | "enter" | "delete" | "create" | "destroy")
    ) {
        flaw = flaw.hint("a line that goes on with a rule begins with a space");
    }
    Err(flaw.perhaps(hint))
}

fn in_order(part: Part, begins: (&str, Part), first: bool, line: Span) -> Result<(), Flaw> {
    let (word, here) = begins;
    let span = Span::new(line.start, line.start + word.len());
    let wrong = |expected: &str| {
        let flaw = Flaw::new(Code::Order, span).found(format!("`{word}` out of order"));
        Err(flaw.expected(expected))
    };
    match here {
        _ if first && here != Part::Rights => wrong("`rights` as the first statement"),
        Part::Rights if part > here => {
            wrong("rights before carries, subjects, objects, cells and rules")
        }
        Part::Carries if part > here => wrong("carries before subjects, objects, cells and rules"),
        Part::Names if part > here => wrong("subjects and objects before cells and rules"),
        _ => Ok(()),
    }
}

fn statement(source: &Source, lines: &[Span], word: &str) -> Result<Statement, Flaw> {
    let mut cursor = Cursor::new(source, lines);
    // The word itself.
    cursor.take()?;
    let statement = match word {
        "rights" => Statement::Rights(lists::items(&mut cursor, "a right")?),
        "carries" => carries(&mut cursor)?,
        "subjects" => Statement::Subjects(lists::items(&mut cursor, "a name")?),
        "objects" => Statement::Objects(lists::items(&mut cursor, "a name")?),
        "cell" => cell(&mut cursor)?,
        _ => Statement::Rule(rules::rule(&mut cursor)?),
    };
    end(&mut cursor)?;
    Ok(statement)
}

/// How each statement is written.
fn form(word: &str) -> &'static str {
    match word {
        "rights" | "subjects" | "objects" => {
            "a list is words with spaces between them: rights own read"
        }
        "carries" => "what a right carries is written so: carries approve: read, print",
        "cell" => "a cell is written so: cell (Ada, vermilion): own read",
        _ => {
            "a rule is written so: rule lend (a, b, f): if own in (a, f) enter read into (b, f); a line that goes on \
             with it begins with a space"
        }
    }
}

fn carries(cursor: &mut Cursor) -> Result<Statement, Flaw> {
    let right = cursor.word("a right")?;
    cursor.mark(':')?;
    let mut carried = lists::words(cursor, "a right")?;
    while cursor.passes(&Token::Mark(','))? {
        carried.extend(lists::words(cursor, "a right")?);
    }
    let lexeme = cursor.peek()?;
    if lexeme.token != Token::End {
        return Err(cursor.unexpected(&lexeme, "`,` and another right, or the end of the line"));
    }
    Ok(Statement::Carries { right, carried })
}

fn cell(cursor: &mut Cursor) -> Result<Statement, Flaw> {
    cursor.mark('(')?;
    let subjects = lists::words(cursor, "a subject")?;
    cursor.mark(',')?;
    let objects = lists::words(cursor, "a name")?;
    cursor.mark(')')?;
    cursor.mark(':')?;
    let mut rights = lists::words(cursor, "a right")?;
    while cursor.peek()?.token != Token::End {
        rights.extend(lists::words(cursor, "a right")?);
    }
    Ok(Statement::Cell {
        subjects,
        objects,
        rights,
    })
}

fn end(cursor: &mut Cursor) -> Result<(), Flaw> {
    let lexeme = cursor.peek()?;
    match lexeme.token {
        Token::End => Ok(()),
        _ => Err(cursor.unexpected(&lexeme, "the end of the line")),
    }
}
