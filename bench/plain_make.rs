// The same graphs in plain Rust, and how long each call takes.
use std::hint::black_box;
use std::time::Instant;

#[path = "plain/arena.rs"]
mod arena;
#[path = "plain/flip.rs"]
mod flip;
#[path = "plain/graph.rs"]
mod graph;
#[path = "plain/hash.rs"]
mod hash;

use arena::{MOST_ARCS, MOST_VERTICES, NONE, Util};
use flip::{Below, Flip};
use graph::{Graph, Refusal, with_bytes, with_number};
use hash::{FastMap, RowIndex};

const MOST_ATTEMPTS: u32 = 10_000_000;
// Each call several times in a row: from the second on it finds the memory that the one before it gave back.
const ROUNDS: u32 = 5;

// Names and lists.

fn push_digits(name: &mut Vec<u8>, number: u32) {
    if number > 9 {
        push_digits(name, number / 10);
    }
    name.push(b'0' + (number % 10) as u8);
}

// The numbers with dots between them.
fn dotted(name: &mut Vec<u8>, parts: &[u32]) {
    name.clear();
    for (i, part) in parts.iter().enumerate() {
        if i > 0 {
            name.push(b'.');
        }
        push_digits(name, *part);
    }
}

// A vertex with these coordinates, of which its fields keep three.
fn push_point(graph: &mut Graph, name: &mut Vec<u8>, parts: &[u32]) -> Result<(), Refusal> {
    dotted(name, parts);
    graph.push_vertex(name)?;
    for (i, part) in parts.iter().take(3).enumerate() {
        if *part > 0 {
            graph.fields_mut(graph.n() - 1)[3 + i] = Util::Int(i64::from(*part));
        }
    }
    Ok(())
}

// The numbers that a list stands for, and what its id shows of it.
fn listed(numbers: &[i64], more: u64, most: u64) -> Result<(Vec<u64>, Vec<i64>), Refusal> {
    let period = numbers.iter().take_while(|number| **number > 0).count();
    let count = match numbers.get(period) {
        _ if period == 0 => 0,
        Some(end) if *end < 0 => end.unsigned_abs() + more,
        _ => period as u64,
    };
    if count > most {
        return Err(Refusal::BadSpecs);
    }
    let shown = (0..numbers.len()).map(|i| if i <= period { numbers[i] } else { 0 }).collect();
    Ok(((0..count as usize).map(|i| numbers[i % period].unsigned_abs()).collect(), shown))
}

fn joined(numbers: &[i64]) -> String {
    numbers.iter().map(|number| number.to_string()).collect::<Vec<_>>().join(",")
}

// Boards.

#[derive(Clone, Copy)]
struct Side {
    size: u32,
    wraps: bool,
}

struct Board {
    graph: Graph,
    directed: bool,
    sides: Vec<Side>,
    rides: bool,
    // How far a step goes along each side, without its sign and with it.
    parts: Vec<i32>,
    steps: Vec<i32>,
}

fn board(numbers: [i64; 4], piece: i64, wrap: i64, directed: bool) -> Result<Graph, Refusal> {
    let numbers = if numbers[0] <= 0 { [8, 8, 0, numbers[3]] } else { numbers };
    let piece = if piece == 0 { 1 } else { piece };
    let (sizes, shown) = listed(&numbers, 0, 20)?;
    let most = match sizes.len() {
        0..=4 => 128,
        5..=16 => 16,
        _ => 4,
    };
    if piece.unsigned_abs() > most {
        return Err(Refusal::BadSpecs);
    }
    let mut count = 1u64;
    for size in &sizes {
        count = count.checked_mul(*size).filter(|count| *count <= MOST_VERTICES as u64).ok_or(Refusal::TooLarge)?;
    }
    let sides: Vec<Side> =
        sizes.iter().enumerate().map(|(k, size)| Side { size: *size as u32, wraps: wrap >> k & 1 == 1 }).collect();
    let id = format!("board({},{piece},{wrap},{})", joined(&shown), u8::from(directed));
    let mut graph = Graph::new(id, count as usize);
    graph.types = *b"ZZZIIIZZZZZZZZ";
    name_positions(&mut graph, &sides, count as usize)?;
    let zeros = vec![0; sides.len()];
    let mut board = Board { graph, directed, sides, rides: piece < 0, parts: zeros.clone(), steps: zeros };
    board.choose_parts(0, piece.unsigned_abs() as i32)?;
    Ok(board.graph)
}

fn name_positions(graph: &mut Graph, sides: &[Side], count: usize) -> Result<(), Refusal> {
    let (mut name, mut position) = (Vec::new(), vec![0; sides.len()]);
    for _ in 0..count {
        push_point(graph, &mut name, &position)?;
        for (x, side) in position.iter_mut().zip(sides).rev() {
            *x += 1;
            if *x < side.size {
                break;
            }
            *x = 0;
        }
    }
    Ok(())
}

impl Board {
    // The squares of the parts add up to the piece.
    fn choose_parts(&mut self, at: usize, left: i32) -> Result<(), Refusal> {
        if self.rides && self.stays_put(at) {
            return Ok(());
        }
        if at == self.sides.len() {
            return if left == 0 { self.choose_signs(0, false) } else { Ok(()) };
        }
        let side = self.sides[at];
        let mut part = 0;
        while part * part <= left && (side.wraps || (part as u32) < side.size) {
            self.parts[at] = part;
            self.choose_parts(at + 1, left - part * part)?;
            part += 1;
        }
        Ok(())
    }

    // A ride by such a step leads off the board or back at once.
    fn stays_put(&self, at: usize) -> bool {
        let mut sides = self.sides.iter().enumerate();
        sides.all(|(k, side)| side.size == 1 || (k < at && self.parts[k] as u32 % side.size == 0))
    }

    // The first part that is not 0 is positive.
    fn choose_signs(&mut self, at: usize, seen: bool) -> Result<(), Refusal> {
        if at == self.parts.len() {
            return self.insert_steps();
        }
        let part = self.parts[at];
        self.steps[at] = part;
        self.choose_signs(at + 1, seen || part > 0)?;
        if seen && part > 0 {
            self.steps[at] = -part;
            self.choose_signs(at + 1, true)?;
        }
        Ok(())
    }

    // Where the step leads from each position.
    fn targets(&self) -> Vec<u32> {
        let mut targets = vec![0];
        for (side, step) in self.sides.iter().zip(&self.steps).rev() {
            let (inner, size) = (targets, side.size as i32);
            targets = Vec::with_capacity(inner.len() * size as usize);
            for x in 0..size {
                let to = if side.wraps { (x + step).rem_euclid(size) } else { x + step };
                if (0..size).contains(&to) {
                    let start = to as u32 * inner.len() as u32;
                    targets.extend(inner.iter().map(|at| if *at == NONE { NONE } else { start + at }));
                } else {
                    targets.resize(targets.len() + inner.len(), NONE);
                }
            }
        }
        targets
    }

    fn insert_steps(&mut self) -> Result<(), Refusal> {
        let targets = self.targets();
        let most = if self.rides { targets.len() } else { 1 };
        for from in 0..targets.len() as u32 {
            let mut at = from;
            for len in 1..=most {
                at = targets[at as usize];
                if at == NONE || (self.rides && at == from) {
                    break;
                }
                self.graph.arena.insert(from, at, len as i64, self.directed)?;
            }
        }
        Ok(())
    }
}

// Simplices and subsets.

// The points whose coordinates have bounds and add up to a total.
struct Points {
    bounds: Vec<u32>,
    // Of all points, one behind another.
    coordinates: Vec<u32>,
    // For each count of last coordinates, how many ways they add up to less than each sum.
    ways: Vec<Vec<u64>>,
}

// The points, and the numbers as the id shows them.
fn points(n: i64, numbers: [i64; 5]) -> Result<(Points, Vec<i64>), Refusal> {
    if !(0..=65_535).contains(&n) {
        return Err(Refusal::BadSpecs);
    }
    let total = n as u32;
    let first = if numbers[0] == 0 { -2 } else { numbers[0] };
    if first < -15 {
        return Err(Refusal::BadSpecs);
    }
    let (bounds, shown) = if first < 0 {
        (vec![total; first.unsigned_abs() as usize + 1], vec![first, 0, 0, 0, 0])
    } else {
        let (list, shown) = listed(&numbers, 1, 16)?;
        let bounds = list.iter().map(|bound| (*bound).min(n as u64) as u32).collect();
        (bounds, shown.iter().map(|number| (*number).min(n)).collect())
    };
    Ok((Points::new(total, bounds)?, shown))
}

impl Points {
    fn new(total: u32, bounds: Vec<u32>) -> Result<Points, Refusal> {
        let mut ways = vec![vec![1; total as usize + 2]];
        ways[0][0] = 0;
        for bound in bounds.iter().rev() {
            let (behind, mut sum) = (ways.last().unwrap(), 0);
            let mut row = vec![0];
            for s in 0..=total as usize {
                sum += (behind[s + 1] - behind[s - s.min(*bound as usize)]).min(65_536);
                row.push(sum);
            }
            ways.push(row);
        }
        let last = &ways[bounds.len()];
        let count = (last[total as usize + 1] - last[total as usize]) as usize;
        if count > MOST_VERTICES {
            return Err(Refusal::TooLarge);
        }
        let coordinates = Vec::with_capacity(count * bounds.len());
        let room = bounds.iter().sum();
        let mut points = Points { bounds, coordinates, ways };
        if total <= room {
            points.list(&mut vec![0; points.bounds.len()], 0, total, room);
        }
        Ok(points)
    }

    fn list(&mut self, point: &mut [u32], place: usize, left: u32, room: u32) {
        if place == point.len() {
            self.coordinates.extend_from_slice(point);
            return;
        }
        let behind = room - self.bounds[place];
        for x in left.saturating_sub(behind)..=self.bounds[place].min(left) {
            point[place] = x;
            self.list(point, place + 1, left - x, behind);
        }
    }

    fn iter(&self) -> impl Iterator<Item = &[u32]> {
        self.coordinates.chunks_exact(self.bounds.len())
    }

    // How many points come before this one.
    fn number_of(&self, point: &[u32]) -> u32 {
        let (mut number, mut left) = (0, point.iter().sum::<u32>() as usize);
        for (x, row) in point.iter().zip(self.ways[..point.len()].iter().rev()) {
            number += row[left + 1] - row[left + 1 - *x as usize];
            left -= *x as usize;
        }
        number as u32
    }

    // A graph of them without arcs.
    fn graph(&self, id: String) -> Result<Graph, Refusal> {
        let mut graph = Graph::new(id, self.iter().count());
        graph.types = *b"ZZZIIIZZZZZZZZ";
        let mut name = Vec::new();
        for point in self.iter() {
            push_point(&mut graph, &mut name, point)?;
        }
        Ok(graph)
    }
}

fn simplex(n: i64, numbers: [i64; 5], directed: bool) -> Result<Graph, Refusal> {
    let (points, shown) = points(n, numbers)?;
    let id = format!("simplex({n},{},{})", joined(&shown), u8::from(directed));
    let mut graph = points.graph(id)?;
    let width = points.bounds.len();
    let mut moved = vec![0; width];
    for (point, v) in points.iter().zip(0..) {
        moved.copy_from_slice(point);
        for j in (0..width).filter(|j| point[*j] > 0) {
            moved[j] -= 1;
            for k in j + 1..width {
                if moved[k] < points.bounds[k] {
                    moved[k] += 1;
                    graph.insert(points.number_of(&moved), v, 1, directed)?;
                    moved[k] -= 1;
                }
            }
            moved[j] += 1;
        }
    }
    Ok(graph)
}

fn subsets(n: i64, numbers: [i64; 5], size_bits: u64, directed: bool) -> Result<Graph, Refusal> {
    let (points, shown) = points(n, numbers)?;
    let id = format!("subsets({n},{},{size_bits:#x},{})", joined(&shown), u8::from(directed));
    let mut graph = points.graph(id)?;
    if points.bounds.iter().sum::<u32>() < 64 {
        insert_by_ones(&mut graph, &points, size_bits, directed)?;
        return Ok(graph);
    }
    for (point, v) in points.iter().zip(0..) {
        for (other, u) in points.iter().zip(0..=v) {
            let size: u32 = point.iter().zip(other).map(|(x, y)| x.min(y)).sum();
            if size < 64 && size_bits >> size & 1 == 1 {
                graph.insert(u, v, 1, directed)?;
            }
        }
    }
    Ok(graph)
}

// Each coordinate as so many ones of a word, so that the overlap of two points is the count of ones that they share.
fn insert_by_ones(graph: &mut Graph, points: &Points, size_bits: u64, directed: bool) -> Result<(), Refusal> {
    let ones = |point: &[u32]| point.iter().zip(&points.bounds).fold(0, |word, (x, bound)| (word << bound) + ((1u64 << x) - 1));
    let words: Vec<u64> = points.iter().map(ones).collect();
    for (v, word) in words.iter().enumerate() {
        for (u, other) in words[..=v].iter().enumerate() {
            if size_bits >> (word & other).count_ones() & 1 == 1 {
                graph.insert(u as u32, v as u32, 1, directed)?;
            }
        }
    }
    Ok(())
}

// Permutations.

struct Arrangements {
    row: Vec<u8>,
    rows: Vec<u8>,
    width: usize,
}

fn perms(numbers: [i64; 5], max_inv: i64, directed: bool) -> Result<Graph, Refusal> {
    if numbers[0] < 1 || max_inv < 0 {
        return Err(Refusal::BadSpecs);
    }
    let (counts, shown) = listed(&numbers, 1, 16)?;
    let (mut width, mut greatest) = (0, 0);
    for count in &counts {
        if *count > 255 - width {
            return Err(Refusal::BadSpecs);
        }
        greatest += width * count;
        width += count;
    }
    let limit = max_inv as u64;
    let most = if limit == 0 || limit > greatest { greatest } else { limit };
    let mut list = Arrangements { row: vec![0; counts[0] as usize], rows: Vec::new(), width: width as usize };
    list.add(0, 0, &counts[1..], 0, most as usize)?;
    let Arrangements { rows, width, .. } = list;
    let id = format!("perms({},{most},{})", joined(&shown), u8::from(directed));
    let mut graph = Graph::new(id, rows.len() / width);
    let mut name = vec![0; width];
    for row in rows.chunks_exact(width) {
        name.iter_mut().zip(row).for_each(|(letter, kind)| *letter = b"0123456789ABCDEF"[*kind as usize]);
        graph.push_vertex(&name)?;
    }
    let index = RowIndex::new(&rows, width);
    let mut moved = vec![0; width];
    for (row, v) in rows.chunks_exact(width).zip(0..) {
        moved.copy_from_slice(row);
        for place in 1..width {
            if moved[place] < moved[place - 1] {
                moved.swap(place - 1, place);
                if let Some(to) = index.get(&moved) {
                    graph.arena.insert(v, to, 1, directed)?;
                }
                moved.swap(place - 1, place);
            }
        }
    }
    Ok(graph)
}

impl Arrangements {
    fn add(&mut self, kind: u8, copies: u64, others: &[u64], right: usize, left: usize) -> Result<(), Refusal> {
        if copies == 0 {
            if let Some((next, others)) = others.split_first() {
                return self.add(kind + 1, *next, others, self.row.len(), left);
            }
            if self.rows.len() >= MOST_VERTICES * self.width {
                return Err(Refusal::TooLarge);
            }
            self.rows.extend_from_slice(&self.row);
            return Ok(());
        }
        for x in 0..=right.min(left) {
            let place = self.row.len() - x;
            self.row.insert(place, kind);
            self.add(kind, copies - 1, others, x, left - x)?;
            self.row.remove(place);
        }
        Ok(())
    }
}

// Binary trees.

struct Trees {
    word: Vec<u8>,
    budgets: Vec<u32>,
    words: Vec<u8>,
    width: usize,
}

fn binary(n: i64, max_height: i64, directed: bool) -> Result<Graph, Refusal> {
    if !(0..=100).contains(&n) || max_height < 0 {
        return Err(Refusal::BadSpecs);
    }
    let most = if max_height == 0 || max_height > n { n } else { max_height };
    let width = 2 * n as usize + 1;
    let mut trees = Trees { word: Vec::new(), budgets: vec![most as u32], words: Vec::new(), width };
    if n as u32 <= room(most as u32) {
        trees.add(n as u32, room(most as u32))?;
    }
    let words = trees.words;
    let id = format!("binary({n},{most},{})", u8::from(directed));
    let mut graph = Graph::new(id, words.len() / width);
    for word in words.chunks_exact(width) {
        graph.push_vertex(word)?;
    }
    let index = RowIndex::new(&words, width);
    let mut moved = vec![0; width];
    for (word, v) in words.chunks_exact(width).zip(0..) {
        for place in 0..width - 1 {
            if &word[place..place + 2] == b".." {
                // From `..abc` to `.a.bc`.
                let end = place + 2 + first_tree(&word[place + 2..]);
                moved.copy_from_slice(word);
                moved.copy_within(place + 2..end, place + 1);
                moved[end - 1] = b'.';
                if let Some(to) = index.get(&moved) {
                    graph.arena.insert(v, to, 1, directed)?;
                }
            }
        }
    }
    Ok(graph)
}

// How many letters the first tree of a word takes.
fn first_tree(word: &[u8]) -> usize {
    let mut needed = 1;
    let is_last = |letter: &u8| {
        needed += if *letter == b'.' { 1 } else { -1 };
        needed == 0
    };
    word.iter().position(is_last).map_or(word.len(), |place| place + 1)
}

fn room(height: u32) -> u32 {
    (1 << height.min(7)) - 1
}

impl Trees {
    fn add(&mut self, dots: u32, total: u32) -> Result<(), Refusal> {
        let Some(budget) = self.budgets.pop() else {
            if self.words.len() >= MOST_VERTICES * self.width {
                return Err(Refusal::TooLarge);
            }
            self.words.extend_from_slice(&self.word);
            return Ok(());
        };
        let others = total - room(budget);
        if dots > 0 && budget > 0 {
            let waiting = self.budgets.len();
            self.word.push(b'.');
            self.budgets.push(budget - 1);
            self.budgets.push(budget - 1);
            self.add(dots - 1, others + 2 * room(budget - 1))?;
            self.budgets.truncate(waiting);
            self.word.pop();
        }
        if dots <= others {
            self.word.push(b'x');
            self.add(dots, others)?;
            self.word.pop();
        }
        self.budgets.push(budget);
        Ok(())
    }
}

// Random graphs.

#[derive(Clone, Copy)]
struct Random {
    n: i64,
    m: i64,
    multi: i64,
    loops: bool,
    directed: bool,
    min: i64,
    max: i64,
}

fn random_graph(spec: Random, seed: i64) -> Result<Graph, Refusal> {
    let Random { n, m, multi, loops, directed, min, max } = spec;
    if n <= 0 || m < 0 {
        return Err(Refusal::BadSpecs);
    }
    if min > max {
        return Err(Refusal::TooLarge);
    }
    if max.abs_diff(min) >= 1 << 31 {
        return Err(Refusal::LengthRange);
    }
    let numbers = if directed { 1 } else { 2 };
    if n > MOST_VERTICES as i64 || m > MOST_ARCS as i64 / numbers {
        return Err(Refusal::TooLarge);
    }
    let flags = format!("{},{},{}", multi.signum(), u8::from(loops), u8::from(directed));
    let id = format!("random_graph({n},{m},{flags},0,0,{min},{max},{seed})");
    let mut graph = Graph::new(id, n as usize);
    for v in 0..n as u32 {
        graph.push_vertex(v.to_string().as_bytes())?;
    }
    graph.arena.reserve((m * numbers) as usize);
    let mut flip = Flip::new(seed);
    let (ends, lengths) = (Below::new(n as u32), Below::new(max.abs_diff(min) as u32 + 1));
    let length = |flip: &mut Flip| match lengths.bound {
        1 => min,
        _ => min + i64::from(flip.uniform(lengths).0),
    };
    // The pairs that are joined, with their first arcs.
    let count = if multi > 0 { 0 } else { m as usize };
    let mut pairs: FastMap<u32, u32> = FastMap::with_capacity_and_hasher(count, Default::default());
    let mut left = m;
    for _ in 0..MOST_ATTEMPTS {
        if left == 0 {
            break;
        }
        let (from, to) = (flip.uniform(ends).0, flip.uniform(ends).0);
        if from == to && !loops {
            continue;
        }
        let pair = if directed { from << 16 | to } else { from.min(to) << 16 | from.max(to) };
        let number = graph.arena.arcs.len() as u32;
        let first = if multi > 0 { number } else { *pairs.entry(pair).or_insert(number) };
        if first == number {
            graph.insert(from, to, length(&mut flip), directed)?;
        } else if multi < 0 {
            let len = length(&mut flip);
            graph.arena.arcs[first as usize..][..numbers as usize].iter_mut().for_each(|arc| arc.len = arc.len.min(len));
        } else {
            continue;
        }
        left -= 1;
    }
    if left == 0 { Ok(graph) } else { Err(Refusal::Stuck) }
}

// A number of all that a graph is: its id, its vertices, and its arcs in the order of their lists.
fn check_of(graph: &Graph) -> u64 {
    let mut check = with_bytes(0, graph.id.as_bytes());
    for v in 0..graph.n() {
        check = with_bytes(check, &graph.labels[v as usize]);
        for field in graph.fields_of(v) {
            let number = if let Util::Int(number) = field { number.unsigned_abs() } else { 0 };
            check = with_number(check, number);
        }
    }
    for (number, arc) in (0..graph.n()).flat_map(|v| graph.arena.walk(v)) {
        let numbers = [u64::from(number), u64::from(arc.tip), arc.len.unsigned_abs()];
        check = numbers.into_iter().fold(check, with_number);
    }
    check
}

// Each call's name, its time in picoseconds, and a number that the graph comes to.
fn time<S: Copy>(name: &str, spec: S, make: impl Fn(S) -> Result<Graph, Refusal>) {
    for _ in 0..ROUNDS {
        let start = Instant::now();
        let made = make(black_box(spec));
        let time = start.elapsed();
        println!("{name} {} {}", time.as_nanos() * 1000, made.map_or(0, |graph| check_of(&graph)));
    }
}

fn main() {
    let random = |multi, directed| Random { n: 10_000, m: 300_000, multi, loops: false, directed, min: 1, max: 1 };
    time("board_250", [250, 250, 0, 0], |numbers| board(numbers, 5, 0, false));
    time("board_79", [79, 79, 0, 0], |numbers| board(numbers, -1, 0, false));
    time("board_20", [2, 1, -20, 0], |numbers| board(numbers, 4, 0, false));
    time("simplex", [-2, 0, 0, 0, 0], |numbers| simplex(300, numbers, false));
    time("subsets", [1, -15, 0, 0, 0], |numbers| subsets(8, numbers, black_box(1), false));
    time("perms", [1, -7, 0, 0, 0], |numbers| perms(numbers, 0, false));
    time("binary", 11, |n| binary(n, 0, false));
    time("random_multi", random(1, false), |spec| random_graph(spec, 1));
    time("random_single", random(0, false), |spec| random_graph(spec, 1));
    time("random_arcs", random(1, true), |spec| random_graph(spec, 1));
    time("arcs_single", random(0, true), |spec| random_graph(spec, 1));
}
