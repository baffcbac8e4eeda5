//! The matrix as a grid of words, and what its rights carry.

use crate::house::carries::Carries;
use crate::house::Matrix;
use crate::terminal::{padded, width};
use crate::words::Words;

/// The grid, and below it what rights carry if some do.
pub fn whole(
    matrix: &Matrix,
    carries: &Carries,
    words: &Words,
    columns: Option<usize>,
) -> Vec<String> {
    let mut lines = lines(matrix, words, columns);
    let legend = legend(carries, words, columns);
    if !legend.is_empty() {
        lines.push(String::new());
        lines.extend(legend);
    }
    lines
}

/// A sentence for each right that carries others: `approve carries read and print`. One that is wider than `columns` goes
/// on in further lines.
pub fn legend(carries: &Carries, words: &Words, columns: Option<usize>) -> Vec<String> {
    let mut lines = Vec::new();
    for right in 0..words.rights.len() {
        let others = carries.others(right);
        let mut line = format!("{} carries", words.right(right));
        for (place, &other) in others.iter().enumerate() {
            let word = words.right(other);
            let piece = match others.len() - place {
                1 if place > 0 => format!("and {word}"),
                1 | 2 => word,
                _ => format!("{word},"),
            };
            if columns.is_some_and(|columns| width(&line) + 1 + width(&piece) > columns) {
                lines.push(std::mem::replace(&mut line, " ".to_string()));
            }
            line.push(' ');
            line.push_str(&piece);
        }
        if !others.is_empty() {
            lines.push(line);
        }
    }
    lines
}

/// Rows of subjects and columns of names, in blocks that are at most `columns` wide if that is given.
pub fn lines(matrix: &Matrix, words: &Words, columns: Option<usize>) -> Vec<String> {
    let subjects = matrix.subjects();
    let names = matrix.names();
    if names.is_empty() {
        return vec!["no names".to_string()];
    }
    let rows: Vec<String> = subjects.iter().map(|&name| words.name(name)).collect();
    let margin = rows.iter().map(|row| width(row)).max().unwrap_or(0);
    let filled: Vec<Vec<String>> = names
        .iter()
        .map(|&name| column(matrix, words, &subjects, name))
        .collect();
    let mut lines = Vec::new();
    for block in blocks(
        &filled,
        columns.map(|columns| columns.saturating_sub(margin + 3)),
    ) {
        if !lines.is_empty() {
            lines.push(String::new());
        }
        let line = |row: usize| {
            let cells = block
                .iter()
                .map(|column| padded(&column[row], wide(column)));
            cells.collect::<Vec<String>>().join("  ")
        };
        let rule: usize = block.iter().map(|column| wide(column) + 2).sum();
        lines.push(format!("{} │ {}", " ".repeat(margin), line(0)));
        lines.push(format!("{}─┼{}", "─".repeat(margin), "─".repeat(rule)));
        for (row, subject) in rows.iter().enumerate() {
            lines.push(format!("{} │ {}", padded(subject, margin), line(row + 1)));
        }
    }
    lines
        .iter()
        .map(|line| line.trim_end().to_string())
        .collect()
}

/// A column: the name, and the rights of each subject.
fn column(matrix: &Matrix, words: &Words, subjects: &[usize], name: usize) -> Vec<String> {
    let cell = |&subject: &usize| {
        let rights = matrix.cell(subject, name).iter();
        rights
            .map(|right| words.right(right))
            .collect::<Vec<String>>()
            .join(" ")
    };
    let mut column = vec![words.name(name)];
    column.extend(subjects.iter().map(cell));
    column
}

fn wide(column: &[String]) -> usize {
    column.iter().map(|cell| width(cell)).max().unwrap_or(0)
}

/// Columns side by side as far as they fit.
fn blocks(columns: &[Vec<String>], most: Option<usize>) -> Vec<&[Vec<String>]> {
    let Some(most) = most else {
        return vec![columns];
    };
    let mut blocks = Vec::new();
    let mut rest = columns;
    while !rest.is_empty() {
        let mut taken = 0;
        let mut used = 0;
        for column in rest {
            used += wide(column) + 2;
            if taken > 0 && used > most {
                break;
            }
            taken += 1;
        }
        let (block, after) = rest.split_at(taken);
        blocks.push(block);
        rest = after;
    }
    blocks
}
