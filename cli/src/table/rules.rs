//! Rules: blanks, conditions and steps.

use super::cursor::Cursor;
use super::lexer::Token;
use super::lists;
use super::mistake::Flaw;
use super::syntax::{ConditionWords, RuleSyntax, StepWords, Verb};
use super::word::Word;

/// A rule, from its word to its last step.
pub fn rule(cursor: &mut Cursor) -> Result<RuleSyntax, Flaw> {
    let item = lists::item(cursor, "the rule's word")?;
    let blanks = blanks(cursor)?;
    cursor.mark(':')?;
    let conditions = conditions(cursor)?;
    let mut steps = vec![step(cursor)?];
    while cursor.passes(&Token::Mark(';'))? {
        steps.push(step(cursor)?);
    }
    let lexeme = cursor.peek()?;
    if lexeme.token != Token::End {
        return Err(cursor.unexpected(&lexeme, "`;` and another step, or the end of the rule"));
    }
    Ok(RuleSyntax {
        item,
        blanks,
        conditions,
        steps,
    })
}

fn blanks(cursor: &mut Cursor) -> Result<Vec<Word>, Flaw> {
    cursor.mark('(')?;
    let mut blanks = vec![cursor.word("a blank")?];
    while cursor.passes(&Token::Mark(','))? {
        blanks.push(cursor.word("a blank")?);
    }
    let lexeme = cursor.peek()?;
    if lexeme.token != Token::Mark(')') {
        return Err(cursor.unexpected(&lexeme, "`,` and another blank, or `)`"));
    }
    cursor.take()?;
    Ok(blanks)
}

fn conditions(cursor: &mut Cursor) -> Result<Vec<ConditionWords>, Flaw> {
    let mut conditions = Vec::new();
    if !cursor.passes(&Token::Own("if"))? {
        return Ok(conditions);
    }
    loop {
        let right = cursor.word("a right")?;
        cursor.own("in")?;
        let (subject, object) = pair(cursor)?;
        conditions.push(ConditionWords {
            right,
            subject,
            object,
        });
        if !cursor.passes(&Token::Own("and"))? {
            return Ok(conditions);
        }
    }
}

fn step(cursor: &mut Cursor) -> Result<StepWords, Flaw> {
    let lexeme = cursor.peek()?;
    let Token::Own(own @ ("enter" | "delete" | "create" | "destroy")) = lexeme.token else {
        return Err(cursor.unexpected(&lexeme, "a step: enter, delete, create or destroy"));
    };
    cursor.take()?;
    match own {
        "enter" => in_cell(cursor, Verb::Enter, "into"),
        "delete" => in_cell(cursor, Verb::Delete, "from"),
        "create" => on_name(cursor, Verb::CreateSubject, Verb::CreateObject),
        _ => on_name(cursor, Verb::DestroySubject, Verb::DestroyObject),
    }
}

fn in_cell(cursor: &mut Cursor, verb: Verb, between: &str) -> Result<StepWords, Flaw> {
    let right = cursor.word("a right")?;
    cursor.own(between)?;
    let (first, second) = pair(cursor)?;
    Ok(StepWords {
        verb,
        right: Some(right),
        first,
        second: Some(second),
    })
}

fn on_name(cursor: &mut Cursor, subject: Verb, object: Verb) -> Result<StepWords, Flaw> {
    let lexeme = cursor.peek()?;
    let verb = match lexeme.token {
        Token::Own("subject") => subject,
        Token::Own("object") => object,
        _ => return Err(cursor.unexpected(&lexeme, "`subject` or `object`")),
    };
    cursor.take()?;
    Ok(StepWords {
        verb,
        right: None,
        first: cursor.word("a blank")?,
        second: None,
    })
}

/// Two blanks that stand for a cell.
fn pair(cursor: &mut Cursor) -> Result<(Word, Word), Flaw> {
    cursor.mark('(')?;
    let first = cursor.word("a blank")?;
    cursor.mark(',')?;
    let second = cursor.word("a blank")?;
    cursor.mark(')')?;
    Ok((first, second))
}
