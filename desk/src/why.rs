//! `why PAGE COND`: the interval of a condition, the line that holds its low end, that line's literals, and on down to facts.

use crate::area::Literal;
use crate::ffi;
use crate::page::{self, Page, Stop};
use crate::probe;
use crate::report::Report;

/// The plain reading at rest, and which conditions the text so far explains.
struct Telling<'a> {
    page: &'a Page,
    run: Vec<u16>,
    /// The conditions on the way down to the one that is told now.
    way: Vec<usize>,
    told: Vec<bool>,
    out: String,
}

pub fn run(page: &Page, given: &str) -> Result<Report, Stop> {
    let condition = page::condition(page, given)?;
    let mut telling = Telling {
        page,
        run: ffi::run_at_rest(&page.area, page.conditions, &[condition as u16]),
        way: Vec::new(),
        told: vec![false; page.conditions],
        out: format!(
            "{}: plain reading at rest, top {}; below a condition the line that holds its low end\n",
            page.path, page.top
        ),
    };
    let asked = Literal {
        condition,
        negated: false,
    };
    telling.tell(asked);
    Ok(Report::new(page, telling.out, 0))
}

impl Telling<'_> {
    fn say(&mut self, depth: usize, text: &str) {
        self.out
            .push_str(&format!("{}{text}\n", "  ".repeat(depth)));
    }

    /// Tells a literal: its interval, and below it the line that holds the low end of its condition.
    fn tell(&mut self, literal: Literal) {
        let depth = 2 * self.way.len();
        let condition = literal.condition;
        let closes = self.way.contains(&condition);
        let known = self.told[condition];
        let end = match (closes, known) {
            (true, _) => ": the loop closes here",
            (false, true) => ": told above",
            (false, false) => "",
        };
        let text = self.shown(literal);
        self.say(depth, &format!("{text}{end}"));
        if !closes && !known {
            self.told[condition] = true;
            self.way.push(condition);
            self.tell_line(depth + 1, condition);
            self.way.pop();
        }
    }

    /// A literal with its interval; a negated one with that of its condition too.
    fn shown(&self, literal: Literal) -> String {
        let condition = literal.condition;
        let held = ffi::value(&self.page.area, &self.run, condition);
        let held = held.expect("what a rule of a reached condition names is reached");
        let value = probe::literal_value(self.page.top, literal, held);
        let label = self.page.literal_label(literal);
        match literal.negated {
            false => format!("{label} is {value}"),
            true => format!("{label} is {value}, since {condition} is {held}"),
        }
    }

    /// Tells the line that holds the low end of a condition, and its literals.
    fn tell_line(&mut self, depth: usize, condition: usize) {
        let Some(line) = ffi::line(&self.page.area, &self.run, condition) else {
            return self.say(depth, &self.page.bodyless(condition));
        };
        if let Some(default) = self.page.default_line(condition) {
            let shown = self.page.shown_line(default);
            self.say(
                depth,
                &format!("unknown by default by {shown}; its F and R lines decide"),
            );
        }
        self.say(depth, &self.page.shown_line(line));
        let mut seen: Vec<Literal> = Vec::new();
        for literal in self.page.literals(line).to_vec() {
            if !seen.contains(&literal) {
                seen.push(literal);
                self.tell(literal);
            }
        }
    }
}
