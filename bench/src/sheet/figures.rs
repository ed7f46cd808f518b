//! The figures of a page as a test or a spreadsheet finds them: read as XML, by the attributes of their cells.

use super::page::order;
use super::Pages;
use crate::picture::xml::{read, Element, Node};

/// The name of a figure with the source or level that it is of, and what stands in its cell.
pub type Figure = (String, String);

/// All figures of a page, in its order.
pub fn figures(page: &str) -> Result<Vec<Figure>, String> {
    let page = page.strip_prefix("<!DOCTYPE html>\n");
    let mut all = Vec::new();
    collect(&read(page.ok_or("it is no HTML")?.as_bytes())?, &mut all);
    Ok(all)
}

fn collect(element: &Element, all: &mut Vec<Figure>) {
    let one = |names: [&str; 2]| names.iter().find_map(|name| element.attribute(name));
    if let Some(named) = one(["data-figure", "data-refusal"]) {
        let named = match one(["data-source", "data-level"]) {
            Some(of) => format!("{named} {of}"),
            None => named.to_owned(),
        };
        let text = element.inner.iter().map(|node| match node {
            Node::Text(text) => text.as_str(),
            Node::Element(_) => "?",
        });
        all.push((named, text.collect()));
    }
    element.elements().for_each(|inner| collect(inner, all));
}

/// How many figures a page should have: 12 of its own, two of each level, 17 of each source that is shown, and six of each
/// trace, or one where it is left out.
pub fn due(pages: &Pages) -> usize {
    let rows = pages.rows.iter();
    let rows: usize = rows.map(|(_, row)| if row.is_ok() { 6 } else { 1 }).sum();
    12 + 2 * 8 + 17 * order(&pages.table, &pages.sheet).len() + rows
}
