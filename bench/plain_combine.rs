// The same combinations and random lengths in plain Rust, and how long whole calls take.
use std::time::{Duration, Instant};

#[path = "plain/arena.rs"]
mod arena;
#[path = "plain/flip.rs"]
mod flip;
#[path = "plain/graph.rs"]
mod graph;
#[path = "plain/hash.rs"]
mod hash;

use arena::{Arc, MOST_VERTICES, NONE, ONE, Util};
use flip::{Below, Flip};
use graph::{Graph, Refusal, mixed, with_bytes, with_number};
use hash::FastMap;

// The ids share what a word and its parts leave of 160 bytes.
fn id_of(word: &str, ids: &[&str], end: &str) -> String {
    let room = 160 - (word.len() + ids.len() + end.len());
    let most = if ids.iter().map(|id| id.len()).sum::<usize>() <= room { room } else { room / ids.len() };
    let short = |id: &&str| if id.len() <= most { id.to_string() } else { format!("{}...)", &id[..most - 4]) };
    format!("{word}({}{end}", ids.iter().map(short).collect::<Vec<_>>().join(","))
}

fn begin_as(id: String, graph: &Graph) -> Result<Graph, Refusal> {
    let mut made = Graph::new(id, graph.labels.len());
    for label in &graph.labels {
        made.push_vertex(label)?;
    }
    Ok(made)
}

fn complement(graph: &Graph, copy: bool, loops: bool, directed: bool) -> Result<Graph, Refusal> {
    graph.check_operand()?;
    let end = format!(",{},{},{})", copy as u8, loops as u8, directed as u8);
    let mut made = begin_as(id_of("complement", &[&graph.id], &end), graph)?;
    let n = graph.n();
    made.arena.reserve(if copy { graph.arena.arcs.len() } else { n as usize * n as usize });
    // By tip, from whom an arc was met last.
    let mut joined = vec![NONE; n as usize];
    for u in 0..n {
        let low = if directed { 0 } else { u };
        graph.arena.walk(u).for_each(|(_, arc)| joined[arc.tip as usize] = u);
        if copy {
            let mut tips: Vec<u32> = graph.arena.walk(u).map(|(_, arc)| arc.tip).collect();
            tips.retain(|w| *w >= low && (loops || *w != u));
            tips.sort_unstable();
            tips.dedup();
            tips.iter().try_for_each(|w| made.insert(u, *w, 1, directed))?;
            continue;
        }
        for w in low..n {
            if joined[w as usize] != u && (loops || w != u) {
                made.arena.insert(u, w, 1, directed)?;
            }
        }
    }
    Ok(made)
}

fn gunion(g: &Graph, h: &Graph, multi: bool, directed: bool) -> Result<Graph, Refusal> {
    g.check_operand()?;
    h.check_operand()?;
    let end = format!(",{},{})", multi as u8, directed as u8);
    let mut made = begin_as(id_of("gunion", &[&g.id, &h.id], &end), g)?;
    made.arena.reserve(g.arena.arcs.len() + h.arena.arcs.len());
    let n = g.n();
    // By target, from whom an arc was inserted last, and its number.
    let mut marks = vec![(NONE, 0); n as usize];
    for v in 0..n {
        let low = if directed { 0 } else { v };
        for (to, len) in g.spokes(v, directed).chain(h.spokes(v, directed)) {
            if to < low || to >= n {
                continue;
            }
            let number = made.arena.arcs.len();
            if !multi && marks[to as usize].0 == v {
                // Both halves of an edge get the least length.
                let first = marks[to as usize].1;
                for arc in &mut made.arena.arcs[first..first + if directed { 1 } else { 2 }] {
                    arc.len = arc.len.min(len);
                }
            } else {
                marks[to as usize] = (v, number);
                made.insert(v, to, len, directed)?;
            }
        }
    }
    Ok(made)
}

fn intersection(g: &Graph, h: &Graph, directed: bool) -> Result<Graph, Refusal> {
    g.check_operand()?;
    h.check_operand()?;
    let end = format!(",0,{})", directed as u8);
    let mut made = begin_as(id_of("intersection", &[&g.id, &h.id], &end), g)?;
    made.arena.reserve(g.arena.arcs.len().min(h.arena.arcs.len()));
    // By target, from whom an arc was met last, and the least length or where that is.
    let mut mine = vec![(NONE, 0); g.labels.len()];
    let mut theirs = vec![(NONE, 0); h.labels.len()];
    let mut firsts: Vec<(u32, i64)> = Vec::new();
    for v in 0..g.n().min(h.n()) {
        let low = if directed { 0 } else { v };
        for (_, arc) in h.arena.walk(v) {
            let mark = &mut theirs[arc.tip as usize];
            *mark = (v, if mark.0 == v { arc.len.min(mark.1) } else { arc.len });
        }
        firsts.clear();
        for (_, arc) in g.arena.walk(v).filter(|(_, arc)| arc.tip >= low) {
            let mark = &mut mine[arc.tip as usize];
            if mark.0 == v {
                let first: &mut (u32, i64) = &mut firsts[mark.1];
                first.1 = first.1.min(arc.len);
            } else {
                *mark = (v, firsts.len());
                firsts.push((arc.tip, arc.len));
            }
        }
        for (to, len) in &firsts {
            match theirs.get(*to as usize) {
                Some((from, other)) if *from == v => made.insert(v, *to, *other.max(len), directed)?,
                _ => {}
            }
        }
    }
    Ok(made)
}

// The tips and lengths of all lists; where not all are asked for, of those that do not lead below.
fn rows(graph: &Graph, directed: bool, all: bool) -> Vec<Vec<(u32, i64)>> {
    (0..graph.n()).map(|v| graph.spokes(v, directed).filter(|(to, _)| all || *to >= v).collect()).collect()
}

fn product(g: &Graph, h: &Graph, kind: i64, directed: bool) -> Result<Graph, Refusal> {
    if !(0..3).contains(&kind) {
        return Err(Refusal::BadSpecs);
    }
    g.check_operand()?;
    h.check_operand()?;
    let longest = |graph: &Graph| graph.labels.iter().map(|label| label.len()).max().unwrap_or(0);
    let count = g.labels.len() * h.labels.len();
    if count > 0 && longest(g) + 1 + longest(h) > 4095 {
        return Err(Refusal::BadOperand);
    }
    let end = format!(",{kind},{})", directed as u8);
    let mut made = Graph::new(id_of("product", &[&g.id, &h.id], &end), count.min(MOST_VERTICES));
    for a in &g.labels {
        for b in &h.labels {
            made.push_vertex(&[a, b",".as_slice(), b].concat())?;
        }
    }
    // Where edges are made, only those to a pair that is not below are looked at.
    let (first, all, upward) = (rows(g, directed, directed), rows(h, directed, true), rows(h, directed, directed));
    let k = h.n();
    for (a, first) in (0..).zip(&first) {
        for b in 0..k {
            let number = a * k + b;
            if kind != 1 {
                for (to, len) in first {
                    made.insert(number, to * k + b, *len, directed)?;
                }
                for (to, len) in &upward[b as usize] {
                    made.insert(number, a * k + to, *len, directed)?;
                }
            }
            for (to, len) in first.iter().filter(|_| kind != 0) {
                let others = if directed || a < *to { &all } else { &upward };
                for (other, least) in &others[b as usize] {
                    made.insert(number, to * k + other, *len.min(least), directed)?;
                }
            }
        }
    }
    Ok(made)
}

// The images of a vertex: the vertex in whose place they are, the first of them, and how many they are.
#[derive(Clone, Copy)]
struct Image {
    leader: u32,
    start: u32,
    count: u32,
}

fn place_images(graph: &Graph) -> Result<Vec<Image>, Refusal> {
    let mut images: Vec<Image> = Vec::with_capacity(graph.labels.len());
    let mut classes = std::collections::HashMap::new();
    let mut next = 0;
    for (v, label) in (0..).zip(&graph.labels) {
        let (leader, count) = match &graph.fields_of(v)[5] {
            Util::Zero => (v, 0),
            Util::Int(k) if *k < 0 => (*classes.entry(*k).or_insert(v), 1),
            Util::Int(k) => (v, *k as u64),
            _ => return Err(Refusal::BadOperand),
        };
        if leader < v {
            images.push(images[leader as usize]);
            continue;
        }
        if count > 1 && label.len() + 1 + count.to_string().len() > 4095 {
            return Err(Refusal::BadOperand);
        }
        if count > MOST_VERTICES as u64 - next as u64 {
            return Err(Refusal::TooLarge);
        }
        images.push(Image { leader, start: next, count: count as u32 });
        next += count as u32;
    }
    Ok(images)
}

fn name_images(made: &mut Graph, graph: &Graph, images: &[Image]) -> Result<(), Refusal> {
    for (v, (label, image)) in (0..).zip(graph.labels.iter().zip(images)) {
        for copy in 0..if image.leader == v { image.count } else { 0 } {
            let end = if copy == 0 { String::new() } else { format!(":{}", copy + 1) };
            made.push_vertex(&[label, end.as_bytes()].concat())?;
        }
    }
    Ok(())
}

// From where, to where and how far arcs lead, by the vertices in whose place the images are. Where a pair is to have one
// arc or edge, it is the first, with the least length.
fn read_runs(graph: &Graph, images: &[Image], multi: bool, directed: bool) -> Vec<(u32, u32, i64)> {
    let mut runs: Vec<(u32, u32, i64)> = Vec::with_capacity(graph.arena.arcs.len());
    let mut firsts: FastMap<(u32, u32), usize> = FastMap::default();
    for v in 0..graph.n() {
        let from = images[v as usize];
        for (tip, len) in graph.spokes(v, directed) {
            let to = images[tip as usize];
            if from.count == 0 || to.count == 0 || (!directed && tip < v) {
                continue;
            }
            let (from, to) = (from.leader, to.leader);
            let pair = if directed { (from, to) } else { (from.min(to), from.max(to)) };
            match if multi { runs.len() } else { *firsts.entry(pair).or_insert(runs.len()) } {
                first if first < runs.len() => runs[first].2 = runs[first].2.min(len),
                _ => runs.push((from, to, len)),
            }
        }
    }
    runs
}

fn induced(graph: &Graph, description: &str, loops: bool, multi: bool, directed: bool) -> Result<Graph, Refusal> {
    if description.len() > 40 {
        return Err(Refusal::BadSpecs);
    }
    graph.check_operand()?;
    let images = place_images(graph)?;
    let end = format!(",{description},{},{},{})", loops as u8, multi as u8, directed as u8);
    let mut made = Graph::new(id_of("induced", &[&graph.id], &end), graph.labels.len());
    name_images(&mut made, graph, &images)?;
    let runs = read_runs(graph, &images, multi, directed);
    made.arena.reserve(if directed { runs.len() } else { 2 * runs.len() });
    for (from, to, len) in runs {
        let alone = from == to;
        let (from, to) = (images[from as usize], images[to as usize]);
        for x in from.start..from.start + from.count {
            for y in to.start..to.start + to.count {
                if (loops || x != y) && (directed || !alone || x <= y) {
                    made.insert(x, y, len, directed)?;
                }
            }
        }
    }
    Ok(made)
}

// Each arc but a loop has its other half beside it, and each loop is followed in its list by its second half.
fn is_paired(graph: &Graph) -> bool {
    let arcs = &graph.arena.arcs;
    let has_half = |number: usize, arc: &Arc| {
        let other = arcs.get(if arc.tip < arc.owner { number.wrapping_sub(1) } else { number + 1 });
        arc.tip < ONE && other.is_some_and(|other| other.owner == arc.tip && other.tip == arc.owner)
    };
    let are_loops_paired = |v| {
        let mut walk = graph.arena.walk(v);
        while let Some((number, arc)) = walk.next() {
            if arc.tip == v && !walk.next().is_some_and(|(second, other)| second == number + 1 && other.tip == v) {
                return false;
            }
        }
        true
    };
    let mut arcs = arcs.iter().enumerate().filter(|(_, arc)| arc.owner != NONE && arc.tip != arc.owner);
    arcs.all(|(number, arc)| has_half(number, arc)) && (0..graph.n()).all(are_loops_paired)
}

// The lengths and the id that a graph had.
type LengthsDelta = (Vec<i64>, String);

// Answers how many numbers were drawn, too.
fn random_lengths(graph: &mut Graph, seed: i64, directed: bool, min: i64, max: i64) -> Result<(LengthsDelta, u64), Refusal> {
    if min > max {
        return Err(Refusal::TooLarge);
    }
    if max.abs_diff(min) >= 1 << 31 {
        return Err(Refusal::LengthRange);
    }
    if directed {
        graph.check_operand()?;
    } else if !is_paired(graph) {
        return Err(Refusal::BadOperand);
    }
    let (mut flip, below) = (Flip::new(seed), Below::new(max.abs_diff(min) as u32 + 1));
    let mut draws = 0;
    let mut draw = || {
        let (number, count) = if min == max { (0, 0) } else { flip.uniform(below) };
        draws += u64::from(count);
        min + i64::from(number)
    };
    let lengths = graph.arena.arcs.iter().map(|arc| arc.len).collect();
    for v in 0..graph.n() {
        let mut link = graph.arena.firsts[v as usize];
        while link != NONE {
            // The other half of an edge comes later, or is the loop's second half.
            let count = if directed { 1 } else { 2 };
            let arc = &graph.arena.arcs[link as usize];
            let (tip, mut next) = (arc.tip, arc.next);
            if directed || tip >= v {
                let len = draw();
                graph.arena.arcs[link as usize..link as usize + count].iter_mut().for_each(|arc| arc.len = len);
                if !directed && tip == v {
                    next = graph.arena.arcs[next as usize].next;
                }
            }
            link = next;
        }
    }
    let end = format!(",{},{min},{max},0,{seed})", directed as u8);
    let id = id_of("random_lengths", &[&graph.id], &end);
    Ok(((lengths, std::mem::replace(&mut graph.id, id)), draws))
}

fn revert_lengths(graph: &mut Graph, delta: LengthsDelta) {
    graph.arena.arcs.iter_mut().zip(delta.0).for_each(|(arc, len)| arc.len = len);
    graph.id = delta.1;
}

// How often each call is timed. Its operands stay, so that a call takes the memory that the one before it gave back: where
// they go in between, the C library may give all of it back to the system, and the next call's time is then in good part
// the system's, which clears it.
const TIMES: u32 = 6;

// Where the edges of a second operand begin.
const SECOND: u32 = 1_000_003;

// How the arcs of the lists lie in memory: nearly in the order of the lists, at even distances, or at random.
#[derive(Clone, Copy)]
enum Layout {
    InOrder,
    Strewn,
    Scattered,
}

// As many edges as the degree for each of `n` vertices; in order, as many of them in parallel as asked for. The second
// operand leads three vertices further than the first, so that they share part of their pairs.
fn with_edges(n: u32, degree: u32, parallel: u32, begin: u32, layout: Layout) -> Graph {
    let mut graph = Graph::numbered(n);
    for i in 0..n * degree {
        let (from, to) = match layout {
            Layout::InOrder => (i / degree, i / degree + 1 + begin % 8 + i % degree / parallel),
            Layout::Strewn => (i, i + begin + i / n * 7 + 1),
            Layout::Scattered => (mixed(begin + 2 * i), mixed(begin + 2 * i + 1)),
        };
        let _ = graph.insert(from % n, to % n, i64::from(1 + i % 1000), false);
    }
    graph
}

// Some are dropped, some have two copies, and some are in classes.
fn with_roles(mut graph: Graph) -> Graph {
    for v in (0..graph.n()).filter(|v| v % 10 > 0) {
        let role = match v % 10 {
            1 => 2,
            2 | 3 => -1 - i64::from(v / 20),
            _ => 1,
        };
        graph.fields_mut(v)[5] = Util::Int(role);
    }
    graph
}

// A number of all that a graph is: its id, its vertices with their names and lists, and its arcs.
fn check_of(graph: &Graph) -> u64 {
    let mut check = with_bytes(0, graph.id.as_bytes());
    for v in 0..graph.n() {
        check = with_bytes(check, &graph.labels[v as usize]);
        check = graph.arena.walk(v).fold(check, |check, (number, _)| with_number(check, u64::from(number)));
    }
    for arc in graph.arena.arcs.iter().filter(|arc| arc.owner != NONE) {
        let numbers = [u64::from(arc.owner), u64::from(arc.tip), arc.len.unsigned_abs()];
        check = numbers.into_iter().fold(check, with_number);
    }
    check
}

fn tell(name: &str, time: Duration, check: u64) {
    println!("{name} {} {check}", time.as_nanos() * 1000);
}

fn time(name: &str, call: impl Fn() -> Result<Graph, Refusal>) {
    let start = Instant::now();
    let made = call();
    tell(name, start.elapsed(), made.map_or(0, |graph| check_of(&graph)));
}

fn time_lengths(end: &str, graph: &mut Graph) {
    let start = Instant::now();
    let made = random_lengths(graph, 1, false, 1, 1000);
    let time = start.elapsed();
    if let Ok((delta, count)) = made {
        tell(&format!("lengths{end}"), time, check_of(graph).wrapping_add(count));
        let start = Instant::now();
        revert_lengths(graph, delta);
        tell(&format!("revert{end}"), start.elapsed(), check_of(graph));
    }
}

fn time_union(name: &str, multi: bool, layout: Layout) {
    let [first, second] = [0, SECOND].map(|begin| with_edges(10_000, 24, 3, begin, layout));
    for _ in 0..TIMES {
        time(name, || gunion(&first, &second, multi, false));
    }
}

fn time_dense(end: &str, layout: Layout) {
    let [first, second] = [0, SECOND].map(|begin| with_edges(1000, 400, 20, begin, layout));
    for _ in 0..TIMES {
        time(&format!("intersection{end}"), || intersection(&first, &second, false));
    }
    let with_roles = with_roles(with_edges(1000, 400, 20, 0, layout));
    for _ in 0..TIMES {
        time(&format!("induced{end}"), || induced(&with_roles, "classes", false, false, false));
    }
    let mut dense = first;
    for _ in 0..TIMES {
        time_lengths(end, &mut dense);
    }
}

// The small ones come first, so that they take memory that was taken before: else a good part of their time is the
// system's, which clears it.
fn main() {
    for _ in 0..TIMES {
        let empty = Graph::numbered(990);
        time("complement", || complement(&empty, false, false, true));
        time("complement_edges", || complement(&empty, false, false, false));
        let mut cycle = Graph::numbered(250);
        for i in 0..250 {
            let _ = cycle.insert(i, (i + 1) % 250, i64::from(1 + i), false);
        }
        time("product", || product(&cycle, &cycle, 2, false));
    }
    time_union("gunion_multi", true, Layout::InOrder);
    time_union("gunion", false, Layout::InOrder);
    time_union("gunion_strewn", false, Layout::Strewn);
    time_union("gunion_far", false, Layout::Scattered);
    time_dense("", Layout::InOrder);
    time_dense("_strewn", Layout::Strewn);
    time_dense("_far", Layout::Scattered);
}
