// The same edits of a graph in plain Rust, and how long each takes.
use std::mem::replace;
use std::time::Instant;

#[path = "plain/arena.rs"]
mod arena;
#[path = "plain/graph.rs"]
mod graph;

use arena::{Arc, Cut, Fields, NONE};
use graph::{Graph, Refusal};

const VERTICES: u32 = 65_535;
const ARCS: u32 = 1_000_000;
const CUTS: u32 = 200_000;
const RECORDS: u32 = 600_000;
// Each is made several times in a row, so that it finds memory that was taken before.
const ROUNDS: u32 = 5;

struct ArcPart {
    tip: u32,
    next: u32,
    len: i64,
    fields: Fields,
}

fn blank(n: u32) -> Graph {
    let mut graph = Graph::new(String::new(), n as usize);
    graph.labels.resize_with(n as usize, Box::default);
    graph.arena.firsts.resize(n as usize, NONE);
    graph
}

fn insert(graph: &mut Graph, from: u32, to: u32, len: i64, directed: bool) -> Result<(), Refusal> {
    if !graph.has_vertex(from) || !graph.has_vertex(to) {
        return Err(Refusal::BadOperand);
    }
    graph.insert(from, to, len, directed)
}

fn cut(graph: &mut Graph, number: u32) -> Result<Cut, Refusal> {
    if !graph.arena.is_live(number) || graph.arena.arcs[number as usize].names > 0 {
        return Err(Refusal::BadOperand);
    }
    Ok(graph.arena.cut(number))
}

// The graph of linked records: a record that no list reaches is a hole.
fn build(labels: Vec<Box<[u8]>>, firsts: Vec<u32>, parts: Vec<ArcPart>) -> Result<Graph, Refusal> {
    let mut graph = Graph::new(String::new(), 0);
    graph.labels = labels;
    graph.arena.firsts = firsts;
    graph.arena.reserve(parts.len());
    for (number, part) in parts.into_iter().enumerate() {
        let ArcPart { tip, next, len, fields } = part;
        graph.arena.arcs.push(Arc { owner: NONE, tip, next, names: 0, len });
        if fields.is_some() {
            *graph.arena.fields_mut(number as u32) = fields;
        }
    }
    graph.link_lists()?;
    Ok(graph)
}

fn walk(graph: &Graph) -> u64 {
    let lists = (0..graph.n()).flat_map(|v| graph.arena.walk(v));
    lists.fold(0, |sum: u64, (number, _)| sum.wrapping_add(u64::from(number)))
}

fn tell(name: &str, start: Instant, count: u32, check: u64) {
    println!("{name} {} {check}", start.elapsed().as_nanos() * 1000 / u128::from(count));
}

fn ends(i: u32) -> (u32, u32) {
    (i.wrapping_mul(7919) % VERTICES, i.wrapping_mul(31) % VERTICES)
}

fn time_inserts(name: &str, count: u32, directed: bool) -> Graph {
    let mut graph = blank(VERTICES);
    let start = Instant::now();
    for i in 0..count {
        let (from, to) = ends(i);
        let _ = insert(&mut graph, from, to, 1, directed);
    }
    tell(name, start, count, u64::from(graph.arena.live()));
    graph
}

fn time_arcs() {
    let mut graph = time_inserts("new_arc", ARCS, true);
    let start = Instant::now();
    let sum = walk(&graph);
    tell("walk", start, ARCS, sum);
    let start = Instant::now();
    for i in 0..CUTS {
        let number = i.wrapping_mul(4001) % ARCS;
        if let Ok(place) = cut(&mut graph, number) {
            graph.arena.revert(number, &place);
        }
    }
    tell("cut_and_revert", start, CUTS, u64::from(graph.arena.live()));
}

fn time_build() {
    let Graph { labels, arena, .. } = blank(VERTICES);
    let mut firsts = arena.firsts;
    let mut parts = Vec::new();
    for i in 0..RECORDS {
        let (from, to) = ends(i);
        let next = replace(&mut firsts[from as usize], i);
        parts.push(ArcPart { tip: to, next, len: 1, fields: None });
    }
    let start = Instant::now();
    let built = build(labels, firsts, parts);
    tell("build", start, RECORDS, built.map_or(0, |graph| u64::from(graph.arena.live())));
}

fn main() {
    for _ in 0..ROUNDS {
        time_arcs();
    }
    for _ in 0..ROUNDS {
        time_inserts("new_edge", ARCS / 2, false);
    }
    for _ in 0..ROUNDS {
        time_build();
    }
}
