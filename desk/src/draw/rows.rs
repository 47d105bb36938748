//! In which row each condition stands. A band is a layer of the page, or a distance from the queries where a loop through an absence leaves no
//! layers. Within a band, a condition stands below those that name it, but for the arrow that closes a loop.

use std::collections::VecDeque;

use super::graph::Graph;
use crate::ffi;
use crate::page::Page;

/// A band: its label, and its rows from the top, each a list of places in `Graph::conditions`.
pub struct Band {
    pub label: String,
    pub rows: Vec<Vec<usize>>,
}

/// The bands from the top, with at most `widest` conditions in a row.
pub fn bands(page: &Page, graph: &Graph, widest: usize) -> Vec<Band> {
    let mut beside = vec![0.5; graph.conditions.len()];
    let groups = match ffi::layers(&page.area, page.conditions) {
        Ok(layers) => by_layer(graph, &layers),
        Err(_) => by_distance(page, graph),
    };
    let band = |(label, members): (String, Vec<usize>)| {
        let depths = depths(graph, &members);
        let rows = depths
            .into_iter()
            .flat_map(|row| split(graph, row, widest, &mut beside));
        Band {
            label,
            rows: rows.collect(),
        }
    };
    groups.into_iter().map(band).collect()
}

/// The conditions by layer, the highest first.
fn by_layer(graph: &Graph, layers: &[usize]) -> Vec<(String, Vec<usize>)> {
    let layer = |place: &usize| layers[graph.conditions[*place]];
    let places: Vec<usize> = (0..graph.conditions.len()).collect();
    let highest = places.iter().map(layer).max().unwrap_or(0);
    let group = |wanted: usize| {
        let members = places
            .iter()
            .copied()
            .filter(|place| layer(place) == wanted);
        (format!("layer {wanted}"), members.collect())
    };
    let groups = (0..=highest).rev().map(group);
    groups
        .filter(|(_, members): &(_, Vec<usize>)| !members.is_empty())
        .collect()
}

/// The conditions by their distance from the queries, and at last those that no query reaches.
fn by_distance(page: &Page, graph: &Graph) -> Vec<(String, Vec<usize>)> {
    let count = graph.conditions.len();
    let mut distance: Vec<Option<usize>> = vec![None; count];
    let mut waiting = VecDeque::new();
    for (place, condition) in graph.conditions.iter().enumerate() {
        if page
            .queries()
            .iter()
            .any(|query| query.condition == *condition)
        {
            distance[place] = Some(0);
            waiting.push_back((place, 0));
        }
    }
    while let Some((from, steps)) = waiting.pop_front() {
        for to in graph.named_by(from) {
            if distance[to].is_none() {
                distance[to] = Some(steps + 1);
                waiting.push_back((to, steps + 1));
            }
        }
    }
    let farthest = distance.iter().flatten().max().map_or(0, |most| most + 1);
    let wanted = (0..farthest).map(Some).chain([None]);
    let group = |wanted: Option<usize>| {
        let members = (0..count).filter(|place| distance[*place] == wanted);
        (distance_label(wanted), members.collect())
    };
    wanted
        .map(group)
        .filter(|(_, members): &(_, Vec<usize>)| !members.is_empty())
        .collect()
}

fn distance_label(distance: Option<usize>) -> String {
    match distance {
        None => "not reached".to_string(),
        Some(0) => "asked".to_string(),
        Some(1) => "1 step".to_string(),
        Some(steps) => format!("{steps} steps"),
    }
}

/// A depth-first walk within a band: which members were seen, which are on the way, and the members in the order in which they were left.
struct Walk<'a> {
    graph: &'a Graph,
    member: Vec<bool>,
    seen: Vec<bool>,
    on_way: Vec<bool>,
    left: Vec<usize>,
    /// Arrows that close a loop.
    closing: Vec<(usize, usize)>,
}

impl Walk<'_> {
    fn visit(&mut self, place: usize) {
        self.seen[place] = true;
        self.on_way[place] = true;
        let graph = self.graph;
        for to in graph.named_by(place) {
            if self.on_way[to] {
                self.closing.push((place, to));
            } else if self.member[to] && !self.seen[to] {
                self.visit(to);
            }
        }
        self.on_way[place] = false;
        self.left.push(place);
    }
}

/// The members of a band in rows: each below all that name it, as high as that allows.
fn depths(graph: &Graph, members: &[usize]) -> Vec<Vec<usize>> {
    let count = graph.conditions.len();
    let mut member = vec![false; count];
    members.iter().for_each(|place| member[*place] = true);
    let mut walk = Walk {
        graph,
        seen: vec![false; count],
        on_way: vec![false; count],
        left: Vec::new(),
        closing: Vec::new(),
        member,
    };
    for place in starts(graph, members, &walk.member) {
        if !walk.seen[place] {
            walk.visit(place);
        }
    }
    let mut depth = vec![0; count];
    for from in walk.left.iter().rev().copied() {
        for to in graph.named_by(from).filter(|to| walk.member[*to]) {
            if !walk.closing.contains(&(from, to)) {
                depth[to] = depth[to].max(depth[from] + 1);
            }
        }
    }
    let deepest = members.iter().map(|place| depth[*place]).max().unwrap_or(0);
    let row = |wanted: usize| {
        members
            .iter()
            .copied()
            .filter(|place| depth[*place] == wanted)
            .collect()
    };
    (0..=deepest).map(row).collect()
}

/// The members in the order in which walks start: first those that no other member names.
fn starts(graph: &Graph, members: &[usize], member: &[bool]) -> Vec<usize> {
    let mut named = vec![false; member.len()];
    for from in members {
        graph.named_by(*from).for_each(|to| named[to] = true);
    }
    let (inner, outer): (Vec<usize>, Vec<usize>) = members.iter().partition(|place| named[**place]);
    outer.into_iter().chain(inner).collect()
}

/// A row that is too wide as several, each over the whole width. `beside` is where in its row a condition stands, from 0 to 1.
fn split(graph: &Graph, row: Vec<usize>, widest: usize, beside: &mut [f64]) -> Vec<Vec<usize>> {
    let parts = row.len().div_ceil(widest);
    let mut keyed: Vec<(f64, usize)> = row
        .into_iter()
        .map(|place| (wish(graph, place, beside), place))
        .collect();
    keyed.sort_by(|a, b| a.0.total_cmp(&b.0).then(a.1.cmp(&b.1)));
    let mut rows = vec![Vec::new(); parts];
    let count = keyed.len() as f64;
    for (at, (_, place)) in keyed.into_iter().enumerate() {
        beside[place] = (at as f64 + 0.5) / count;
        rows[at % parts].push(place);
    }
    rows
}

/// Where a condition would best stand: in the middle of those that name it.
fn wish(graph: &Graph, place: usize, beside: &[f64]) -> f64 {
    let naming = graph
        .arrows
        .iter()
        .filter(|arrow| arrow.to == place && arrow.from != place);
    let places: Vec<f64> = naming.map(|arrow| beside[arrow.from]).collect();
    match places.len() {
        0 => 0.5,
        count => places.iter().sum::<f64>() / count as f64,
    }
}
