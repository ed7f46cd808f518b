//! A window as the text of a picture, from the model: what a picture is compared with byte for byte, and the example.

use std::fmt::Write;

use super::{left, middle, top, Bar, Column, Nesting};
use super::{BAND, FIQ_TOP, HEIGHT, IRQ_TOP, NUMBERED, REFUSALS, STEPS, WIDTH};
use crate::model::aic::ENTRIES;

/// The whole text.
pub fn write(nesting: &Nesting) -> Vec<u8> {
    let mut text = head(nesting);
    for place in 0..ENTRIES {
        centred(&mut text, 52, top(place) + 18, place as u32 + 1);
    }
    for (number, (nth, column)) in (nesting.first..).zip(nesting.columns.iter().enumerate()) {
        write_column(&mut text, nth + 1, column);
        if number % NUMBERED == 0 {
            centred(&mut text, middle(nth + 1), STEPS, number);
        }
    }
    for bar in &nesting.bars {
        write_bar(&mut text, bar);
    }
    text.push_str("</svg>\n");
    text.into_bytes()
}

/// The frame with what stands in every picture.
fn head(nesting: &Nesting) -> String {
    let columns = nesting.columns.len();
    let width = (40 + left(columns + 1) - WIDTH).max(704);
    let (first, end) = (nesting.first, left(columns + 1));
    let last = first + columns as u32 - 1;
    format!(
        "<svg xmlns=\"http://www.w3.org/2000/svg\" font-family=\"sans-serif\" font-size=\"10\" height=\"390\" width=\"{width}\">\n\
        <rect width=\"100%\" height=\"100%\" fill=\"white\"/>\n\
        <text x=\"8\" y=\"14\">AIC, steps {first} to {last} of the trace: a column is one step, and shows what holds after it</text>\n\
        <text x=\"8\" y=\"36\">IRQ</text>\n\
        <text x=\"8\" y=\"56\">FIQ</text>\n\
        <text x=\"8\" y=\"80\">refused by</text>\n\
        <text x=\"8\" y=\"332\">steps</text>\n\
        <text transform=\"translate(24 262) rotate(-90)\">entries open, at most 8</text>\n\
        <path d=\"M64 92V316H{end}\" fill=\"none\" stroke=\"black\"/>\n\
        <text x=\"8\" y=\"352\">A bar is one open entry, from the step that opens it to the one that closes it or to the last one: S is its source, L its level;</text>\n\
        <text x=\"8\" y=\"366\">a dashed bar is a spurious mark. A dark box says that the output is active.</text>\n\
        <text x=\"8\" y=\"380\">A tick says that the step is refused, by the number under it.</text>\n"
    )
}

fn centred(text: &mut String, x: usize, y: usize, number: u32) {
    let _ = writeln!(
        text,
        "<text text-anchor=\"middle\" x=\"{x}\" y=\"{y}\">{number}</text>"
    );
}

fn write_column(text: &mut String, nth: usize, column: &Column) {
    let (x, x_middle) = (left(nth), middle(nth));
    for (active, y) in [(column.irq, IRQ_TOP), (column.fiq, FIQ_TOP)] {
        if active {
            let _ = writeln!(
                text,
                "<rect x=\"{x}\" y=\"{y}\" width=\"{WIDTH}\" height=\"{BAND}\" fill=\"#333\"/>"
            );
        }
    }
    if let Some(number) = column.refused {
        let _ = writeln!(text, "<path d=\"M{x_middle} 64v8\" stroke=\"black\"/>");
        centred(text, x_middle, REFUSALS, number);
    }
}

fn write_bar(text: &mut String, bar: &Bar) {
    let (x, y, width) = (left(bar.from), top(bar.place), WIDTH * (bar.to - bar.from));
    let _ = write!(
        text,
        "<rect x=\"{x}\" y=\"{y}\" width=\"{width}\" height=\"{HEIGHT}\" "
    );
    let _ = match (bar.entry.source, bar.entry.level) {
        (Some(source), Some(level)) => writeln!(
            text,
            "fill=\"white\" stroke=\"black\"/>\n\
            <text x=\"{}\" y=\"{}\">S{source}</text>\n\
            <text x=\"{}\" y=\"{}\">L{level}</text>",
            x + 3,
            y + 11,
            x + 3,
            y + 22
        ),
        _ => writeln!(
            text,
            "fill=\"#ddd\" stroke=\"black\" stroke-dasharray=\"3 2\"/>\n\
            <text font-size=\"9\" x=\"{}\" y=\"{}\">mark</text>",
            x + 1,
            y + 17
        ),
    };
}
