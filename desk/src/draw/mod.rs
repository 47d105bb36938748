//! `draw PAGE`: the page as an SVG picture that needs no other file. Conditions are boxes with their intervals as bars, in rows; an arrow leads from a
//! condition to one that a rule of it names.

mod arrows;
mod boxes;
mod graph;
mod layout;
mod legend;
mod order;
mod picture;
mod place;
mod rows;
mod svg;

use arrows::Arrows;
use boxes::Boxes;
use graph::Graph;
use layout::Layout;
use order::Routes;

use crate::page::Page;
use crate::report::Report;

pub fn run(page: &Page) -> Report {
    let graph = Graph::of(page);
    let boxes = Boxes::of(page, &graph);
    let bands = rows::bands(page, &graph, widest(&boxes));
    let all = bands.iter().flat_map(|band| band.rows.clone());
    let routes = Routes::of(&graph, all.collect());
    let layout = Layout::new(&boxes, &bands, &routes, |width| {
        legend::drawn(page, width).1
    });
    let arrows = Arrows {
        page,
        graph: &graph,
        routes: &routes,
        layout: &layout,
    };
    let content = [
        picture::stripes(&bands, &layout),
        legend::drawn(page, layout.width).0,
        picture::boxes(&boxes, &layout, page.top),
        arrows.drawn(),
    ];
    let out = svg::document(layout.width, layout.height, &page.path, &content.concat());
    Report::new(page, out, 0)
}

/// The most boxes in a row: so many that the picture is not much wider than high, and never fewer than eight.
fn widest(boxes: &Boxes) -> usize {
    let count = boxes.all.len() as f64;
    let shape = (boxes.height + 70.0) / (boxes.width + 40.0);
    ((count * shape * 1.2).sqrt().ceil() as usize).max(8)
}
