//! The head of the picture: its title and what the signs mean.

use super::picture::{bar_of, pills, unknown_mark};
use super::svg::{self, Way};
use crate::area::Interval;
use crate::page::Page;

/// A sign: its width, how it is drawn at a point, and what it means.
type Sign<'a> = (f64, &'a dyn Fn(f64, f64) -> String, &'a str);

const LEFT: f64 = 10.0;
const ROW: f64 = 22.0;

/// The head of a picture of some width, and where the picture goes on below.
pub fn drawn(page: &Page, width: f64) -> (String, f64) {
    let file = page.path.rsplit('/').next().unwrap_or_default();
    let top = page.top;
    let mut out = svg::text("title", LEFT, 26.0, file);
    let reading =
        format!("plain reading at rest, top {top}; below it the closed reading where it differs");
    out.push_str(&svg::text("words", LEFT, 44.0, &reading));
    let sample = Interval { low: 1, high: 2 };
    let bar = |x: f64, y: f64| bar_of(sample, 3, x, y + 3.0, 60.0);
    let plain = |x: f64, y: f64| arrow(false, x, y);
    let negated = |x: f64, y: f64| arrow(true, x, y);
    let number = |x: f64, y: f64| svg::text("far", x + 6.0, y + 11.0, "12");
    let asked = |x: f64, y: f64| {
        svg::rect("box asked", x + 2.0, y, 30.0, 15.0, 3.0) + &pills(&["K"], x + 10.0, y + 1.0)
    };
    let unreached = |x: f64, y: f64| svg::rect("box unreached", x, y, 34.0, 15.0, 3.0);
    let unknown = |x: f64, y: f64| unknown_mark(x, y + 1.0);
    let mut signs: Vec<Sign> = vec![
        (60.0, &bar, "at least, open, excluded"),
        (60.0, &plain, "a rule of A names B"),
        (60.0, &negated, "a rule of A names !B"),
        (10.0, &number, "where an arrow over several rows leads"),
        (34.0, &asked, "asked: K plain, W closed"),
        (34.0, &unreached, "no query reaches it"),
    ];
    if (0..page.conditions).any(|condition| page.default_line(condition).is_some()) {
        signs.push((14.0, &unknown, "unknown by default"));
    }
    let (rows, last) = in_rows(&signs, width);
    (out + &rows, last + 32.0)
}

/// Signs side by side, in as many rows as they need, and where the last row stands.
fn in_rows(signs: &[Sign], width: f64) -> (String, f64) {
    let mut out = String::new();
    let (mut x, mut y) = (LEFT, 56.0);
    for (size, sign, words) in signs {
        let room = size + 26.0 + 6.3 * words.len() as f64;
        if x + room > width {
            (x, y) = (LEFT, y + ROW);
        }
        out.push_str(&sign(x, y));
        out.push_str(&svg::text("words", x + size + 7.0, y + 11.5, words));
        x += room;
    }
    (out, y)
}

fn arrow(negated: bool, x: f64, y: f64) -> String {
    let end = x + 46.0;
    let steps = format!(
        "M{} {}H{}",
        svg::number(x + 12.0),
        svg::number(y + 7.0),
        svg::number(end - svg::reach(negated))
    );
    [
        svg::text("number", x, y + 12.0, "A"),
        svg::path(negated, &steps, ""),
        svg::end(negated, Way::Right, end, y + 7.0),
        svg::text("number", end + 3.0, y + 12.0, "B"),
    ]
    .concat()
}
