//! The picture: bands, boxes, and bars in them.

use super::boxes::{Boxes, Content};
use super::layout::{Layout, BAND_GAP, MARGIN};
use super::rows::Band;
use super::svg;
use crate::area::Interval;
use crate::bar;

/// Room between the side of a box and what stands in it.
const PAD: f64 = 8.0;
const BAR: f64 = 7.0;
const NAME_LINE: f64 = 13.0;
/// From a letter on its ground to the next.
const PILL: f64 = 16.0;

/// The bands: a stripe behind every second one, and the labels.
pub fn stripes(bands: &[Band], layout: &Layout) -> String {
    let mut out = String::new();
    let mut row = 0;
    for (number, band) in bands.iter().enumerate() {
        let top = layout.tops[row] - BAND_GAP;
        row += band.rows.len();
        let next = layout.tops.get(row);
        let bottom = next.map_or(layout.height - MARGIN, |next| next - BAND_GAP);
        if number % 2 == 0 {
            out.push_str(&svg::rect(
                "stripe",
                0.0,
                top,
                layout.width,
                bottom - top,
                0.0,
            ));
        }
        out.push_str(&svg::text("band", 10.0, top + BAND_GAP + 15.0, &band.label));
    }
    out
}

/// All boxes.
pub fn boxes(boxes: &Boxes, layout: &Layout, top: u16) -> String {
    let mut out = String::new();
    for (node, content) in boxes.all.iter().enumerate() {
        let x = layout.middle[node] - layout.box_width / 2.0;
        out.push_str(&one_box(boxes, content, top, (x, layout.top(node))));
    }
    out
}

/// The box of a condition, with its left upper corner at a point.
fn one_box(boxes: &Boxes, content: &Content, top: u16, (x, y): (f64, f64)) -> String {
    let (left, right) = (x + PAD, x + boxes.width - PAD);
    let below = y + 24.0 + NAME_LINE * boxes.name_lines as f64;
    let mut out = format!(
        "<g id=\"c{}\"><title>{}</title>\n",
        content.condition,
        svg::escaped(&content.tip)
    );
    out.push_str(&svg::rect(
        &class(content),
        x,
        y,
        boxes.width,
        boxes.height,
        5.0,
    ));
    out.push_str(&first_line(content, left, right, y));
    for (place, line) in content.name.iter().enumerate() {
        out.push_str(&svg::text(
            "name",
            left,
            y + 30.0 + NAME_LINE * place as f64,
            line,
        ));
    }
    out.push_str(&bar_of(content.plain, top, left, below, right - left));
    if let Some(closed) = content.closed {
        out.push_str(&second_bar(closed, top, (left, right), below));
    }
    if content.without_lines {
        out.push_str(&svg::text("small", left, below + 20.0, "no line"));
    }
    out + "</g>\n"
}

/// The closed interval and its bar, below the first bar.
fn second_bar(closed: Interval, top: u16, (left, right): (f64, f64), below: f64) -> String {
    [
        svg::text("small", left, below + 19.0, "closed"),
        svg::text("small end", right, below + 19.0, &closed.to_string()),
        bar_of(closed, top, left, below + 23.0, right - left),
    ]
    .concat()
}

fn class(content: &Content) -> String {
    let reached = if content.reached { "" } else { " unreached" };
    let asked = if content.asked.is_empty() {
        ""
    } else {
        " asked"
    };
    format!("box{reached}{asked}")
}

/// The number, the readings that are asked for, the mark of a condition unknown by default, and the plain interval.
fn first_line(content: &Content, left: f64, right: f64, y: f64) -> String {
    let number = content.condition.to_string();
    let after = left + 5.0 + 8.0 * number.len() as f64;
    let mark = after + PILL * content.asked.len() as f64;
    let mark = if content.unknown_by_default {
        unknown_mark(mark, y + 5.0)
    } else {
        String::new()
    };
    [
        svg::text("number", left, y + 16.0, &number),
        pills(&content.asked, after, y + 5.0),
        mark,
        svg::text("end", right, y + 16.0, &content.plain.to_string()),
    ]
    .concat()
}

/// A bar: dark up to the low end, hatched from there to the high end, blank above.
pub fn bar_of(interval: Interval, top: u16, x: f64, y: f64, width: f64) -> String {
    let (sure, open) = bar::parts(interval, top, width as usize);
    let (sure, open) = (sure as f64, open as f64);
    let mut out = svg::rect("track", x, y, width, BAR, 0.0);
    if sure > 0.0 {
        out.push_str(&svg::rect("sure", x, y, sure, BAR, 0.0));
    }
    if open > 0.0 {
        out.push_str(&svg::rect("open", x + sure, y, open, BAR, 0.0));
    }
    out
}

/// The letters of the readings that are asked for.
pub fn pills(letters: &[&str], x: f64, y: f64) -> String {
    let mut out = String::new();
    for (place, letter) in letters.iter().enumerate() {
        out.push_str(&pill("pill", letter, x + PILL * place as f64, y));
    }
    out
}

/// The mark of a condition that is unknown by default.
pub fn unknown_mark(x: f64, y: f64) -> String {
    pill("pill unknown", "U", x, y)
}

/// A letter on a ground.
fn pill(class: &str, letter: &str, x: f64, y: f64) -> String {
    svg::rect(class, x, y, 14.0, 13.0, 3.0) + &svg::text("letter", x + 7.0, y + 10.0, letter)
}
