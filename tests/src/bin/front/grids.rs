//! The matrix of a page: read back from its grids it is the table's, and every
//! grid fits on paper.

use super::extents::width;
use super::xml::Element;
use std::collections::BTreeMap;
use tugcaphi::input::Content;

/// What a sheet has room for beside margins, in pixels: A4 and Letter at 96 to the inch.
const SHEET: i64 = 630;
/// Padding and line of a cell.
const AROUND: i64 = 27;

/// The rights of each cell, by the words of its row and its column.
type Cells = BTreeMap<(String, String), Vec<String>>;

pub fn held(root: &Element, content: &Content) -> Result<(), String> {
    let tables = root.named("table").into_iter();
    let grids = tables.filter(|table| table.attribute("class") == Some("grid"));
    let mut told = Cells::new();
    let mut columns = Vec::new();
    for grid in grids {
        let names = row(grid.named("tr").first().ok_or("a grid without a row")?);
        fits(grid, &names[1..])?;
        columns.extend(names[1..].to_vec());
        for line in grid.named("tr").into_iter().skip(1) {
            let subject = row(line)[0].clone();
            for (name, cell) in names[1..].iter().zip(line.named("td")) {
                let rights = cell.named("span").iter().map(|span| span.text()).collect();
                told.insert((subject.clone(), name.clone()), rights);
            }
        }
    }
    let (matrix, words) = (&content.house.matrix, &content.words);
    let word = |&name: &usize| words.name_alone(name);
    let names: Vec<String> = matrix.names().iter().map(word).collect();
    if columns != names {
        return Err(format!("the columns {columns:?}, of {names:?}"));
    }
    let mut wanted = Cells::new();
    for subject in matrix.subjects() {
        for name in matrix.names() {
            let rights = matrix.cell(subject, name).iter();
            let rights = rights.map(|right| words.right_alone(right)).collect();
            wanted.insert((word(&subject), word(&name)), rights);
        }
    }
    match told == wanted {
        true => Ok(()),
        false => Err(format!("the matrix {told:?}, wanted {wanted:?}")),
    }
}

fn row(line: &Element) -> Vec<String> {
    line.named("th").iter().map(|head| head.text()).collect()
}

/// A grid of several columns is no wider than a sheet.
fn fits(grid: &Element, names: &[String]) -> Result<(), String> {
    let rows = grid.named("tr");
    let wide = |texts: Vec<String>| {
        let widths = texts.iter().map(|text| width(text, 16));
        widths.max().unwrap_or(0) + AROUND
    };
    let heads = rows.iter().skip(1).map(|line| row(line)[0].clone());
    let mut total = wide(heads.collect());
    for (column, name) in names.iter().enumerate() {
        let cells = rows.iter().skip(1).map(|line| line.named("td")[column]);
        let rights = cells.flat_map(|cell| cell.named("span"));
        let texts = rights.map(|right| right.text()).chain([name.clone()]);
        total += wide(texts.collect());
    }
    match names.len() == 1 || total <= SHEET {
        true => Ok(()),
        false => Err(format!("a grid of {total} pixels: {names:?}")),
    }
}
