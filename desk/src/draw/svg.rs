//! The elements of an SVG picture, as text.

/// The document: its size in pixels, its title, and what is in it.
pub fn document(width: f64, height: f64, title: &str, content: &str) -> String {
    let (width, height) = (width.ceil(), height.ceil());
    format!(
        "<svg xmlns=\"http://www.w3.org/2000/svg\" width=\"{width}\" height=\"{height}\" viewBox=\"0 0 {width} {height}\" role=\"img\">\n\
         <title>{}</title>\n{STYLE}<rect width=\"{width}\" height=\"{height}\" fill=\"#ffffff\"/>\n{content}</svg>\n",
        escaped(title)
    )
}

const STYLE: &str = r##"<style>
text { font-family: Arial, "Liberation Sans", Helvetica, "DejaVu Sans", sans-serif; font-size: 11px; fill: #0f172a; }
.title { font-size: 16px; font-weight: bold; }
.band { font-size: 12px; font-weight: bold; fill: #475569; }
.number { font-size: 13px; font-weight: bold; }
.small { font-size: 10px; fill: #334155; }
.sign { font-size: 10px; font-weight: bold; fill: #b91c1c; text-anchor: middle; }
.letter { font-size: 10px; font-weight: bold; fill: #ffffff; text-anchor: middle; }
.far { font-size: 8.5px; fill: #475569; text-anchor: middle; paint-order: stroke; stroke: #ffffff; stroke-width: 2.5px; }
.end { text-anchor: end; }
.stripe { fill: #f5f7fa; }
.box { fill: #ffffff; stroke: #475569; stroke-width: 1.2; }
.asked { stroke: #1d4ed8; stroke-width: 3; }
.unreached { fill: #e2e8f0; stroke: #94a3b8; }
.pill { fill: #1d4ed8; }
.unknown { fill: #b45309; }
.track { fill: #ffffff; stroke: #64748b; stroke-width: 0.8; }
.sure { fill: #1e3a8a; }
.open { fill: url(#hatch); }
.arrow { fill: none; stroke: #475569; stroke-width: 1.3; }
.arrow:hover { stroke-width: 3; }
.negated { stroke: #b91c1c; stroke-dasharray: 5 3; }
.head { fill: #475569; }
.ring { fill: #ffffff; stroke: #b91c1c; stroke-width: 1.3; }
</style>
<defs><pattern id="hatch" width="5" height="5" patternUnits="userSpaceOnUse" patternTransform="rotate(45)"><rect width="5" height="5" fill="#dbeafe"/><rect width="2" height="5" fill="#3b82f6"/></pattern></defs>
"##;

/// A text as it may stand in the document; a character that XML does not allow is shown as unknown.
pub fn escaped(text: &str) -> String {
    let mut out = String::new();
    for letter in text.chars() {
        match letter {
            '&' => out.push_str("&amp;"),
            '<' => out.push_str("&lt;"),
            '>' => out.push_str("&gt;"),
            '"' => out.push_str("&quot;"),
            '\u{FFFE}' | '\u{FFFF}' => out.push('\u{FFFD}'),
            _ if letter.is_control() && letter != '\n' => out.push('\u{FFFD}'),
            _ => out.push(letter),
        }
    }
    out
}

/// A number with at most one digit behind the point.
pub fn number(value: f64) -> String {
    let rounded = format!("{value:.1}");
    rounded
        .trim_end_matches('0')
        .trim_end_matches('.')
        .to_string()
}

pub fn text(class: &str, x: f64, y: f64, words: &str) -> String {
    let (x, y) = (number(x), number(y));
    format!(
        "<text class=\"{class}\" x=\"{x}\" y=\"{y}\">{}</text>\n",
        escaped(words)
    )
}

pub fn rect(class: &str, x: f64, y: f64, width: f64, height: f64, round: f64) -> String {
    format!(
        "<rect class=\"{class}\" x=\"{}\" y=\"{}\" width=\"{}\" height=\"{}\" rx=\"{}\"/>\n",
        number(x),
        number(y),
        number(width),
        number(height),
        number(round)
    )
}

/// A path of an arrow, with what a browser shows when the pointer rests on it.
pub fn path(negated: bool, steps: &str, tip: &str) -> String {
    let class = if negated { "arrow negated" } else { "arrow" };
    let tip = escaped(tip);
    format!("<path class=\"{class}\" d=\"{steps}\"><title>{tip}</title></path>\n")
}

/// A curve between two points that leaves and comes in upright.
pub fn curve(from: (f64, f64), to: (f64, f64)) -> String {
    let middle = (from.1 + to.1) / 2.0;
    format!(
        "M{} {}C{} {} {} {} {} {}",
        number(from.0),
        number(from.1),
        number(from.0),
        number(middle),
        number(to.0),
        number(middle),
        number(to.0),
        number(to.1)
    )
}

/// Which way an arrow points.
#[derive(Clone, Copy, PartialEq, Eq)]
pub enum Way {
    Down,
    Up,
    Left,
    Right,
}

/// The length of a head, and the width of a ring.
const HEAD: f64 = 9.0;
const RING: f64 = 12.0;

/// How far the end of an arrow reaches from its point to its line.
pub fn reach(negated: bool) -> f64 {
    if negated {
        RING
    } else {
        HEAD
    }
}

/// The end of an arrow at a point: a filled head, or a ring with `!` for a negation.
pub fn end(negated: bool, way: Way, x: f64, y: f64) -> String {
    let (dx, dy) = match way {
        Way::Down => (0.0, -1.0),
        Way::Up => (0.0, 1.0),
        Way::Left => (1.0, 0.0),
        Way::Right => (-1.0, 0.0),
    };
    if negated {
        let (x, y) = (x + dx * RING / 2.0, y + dy * RING / 2.0);
        let (cx, cy, r) = (number(x), number(y), number(RING / 2.0));
        let ring = format!("<circle class=\"ring\" cx=\"{cx}\" cy=\"{cy}\" r=\"{r}\"/>\n");
        return ring + &text("sign", x, y + 3.5, "!");
    }
    let (bx, by) = (x + dx * HEAD, y + dy * HEAD);
    let corner = |side: f64| {
        format!(
            "{} {}",
            number(bx + side * dy * 4.0),
            number(by + side * dx * 4.0)
        )
    };
    format!(
        "<path class=\"head\" d=\"M{} {}L{}L{}Z\"/>\n",
        number(x),
        number(y),
        corner(1.0),
        corner(-1.0)
    )
}
