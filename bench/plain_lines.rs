// A shell of the generator's and the editing commands in plain Rust: the same scripts, the same transcripts, without
// any proof, and without the commands that make standard, random and combined graphs or saved texts.
//
//     plain_lines run [FILE]
use std::fs::File;
use std::io::{Read, Write};
use std::mem::swap;
use std::os::fd::AsFd;
use std::process::ExitCode;

#[path = "plain/arena.rs"]
mod arena;
#[path = "plain/digits.rs"]
mod digits;
#[path = "plain/flip.rs"]
mod flip;

use arena::{Arena, Cut, MOST_VERTICES, Util};
use digits::{LONGEST, put_digits};
use flip::{Below, Flip};

const MOST_SCRIPT: usize = 16_777_216;
const MOST_LINE: usize = 8192;
const MOST_TEXT: usize = 4095;
const MOST_ID: usize = 160;
const MOST_NAME: usize = 32;
const MOST_GRAPHS: usize = 64;
const MOST_STEPS: usize = 65_535;
const BLOCK: usize = 65_536;

// A refusal, by what is told of it.
#[derive(PartialEq)]
struct Refusal(&'static str);

const BAD_SPECIFICATION: Refusal = Refusal("30 bad specification");
const TOO_LARGE: Refusal = Refusal("40 too large");
const NO_SUCH_GRAPH: Refusal = Refusal("50 no such graph");
const BAD_OPERAND: Refusal = Refusal("60 bad operand");
const BAD_COMMAND: Refusal = Refusal("100 bad command");
const TABLE_IS_FULL: Refusal = Refusal("101 table is full");
const NAME_IS_TAKEN: Refusal = Refusal("102 name is taken");
const NOTHING_TO_UNDO: Refusal = Refusal("103 nothing to undo");
const NOTHING_TO_REDO: Refusal = Refusal("104 nothing to redo");
const JOURNAL_IS_FULL: Refusal = Refusal("105 journal is full");

type Answer<T> = Result<T, Refusal>;

fn ensure(is_so: bool, refusal: Refusal) -> Answer<()> {
    if is_so { Ok(()) } else { Err(refusal) }
}

// The transcript, written in blocks.

struct Output {
    bytes: Vec<u8>,
    file: File,
    has_failed: bool,
}

impl Output {
    fn put(&mut self, bytes: &[u8]) {
        self.bytes.extend_from_slice(bytes);
    }

    // As many bytes as the longest number has are copied at once, and those that are too many are dropped.
    fn put_number(&mut self, number: u64) {
        let mut digits = [0; 2 * LONGEST];
        let at = put_digits(&mut digits, LONGEST, number);
        let len = self.bytes.len();
        self.bytes.extend_from_slice(&digits[at..at + LONGEST]);
        self.bytes.truncate(len + LONGEST - at);
    }

    fn put_with(&mut self, before: &[u8], number: u64) {
        self.put(before);
        self.put_number(number);
    }

    fn put_signed(&mut self, number: i64) {
        if number < 0 {
            self.bytes.push(b'-');
        }
        self.put_number(number.unsigned_abs());
    }

    fn put_quoted(&mut self, bytes: &[u8]) {
        self.put(b"\"");
        self.put(bytes);
        self.put(b"\"");
    }

    fn flush(&mut self) {
        self.has_failed |= self.file.write_all(&self.bytes).is_err();
        self.bytes.clear();
    }

    // After each line of an answer.
    fn pass_block(&mut self) {
        if self.bytes.len() >= BLOCK {
            self.flush();
        }
    }
}

// Words; of a text its first quote shows that it is one.

struct Words<'a> {
    rest: &'a [u8],
}

impl<'a> Words<'a> {
    fn next(&mut self) -> Answer<&'a [u8]> {
        let spaces = self.rest.iter().take_while(|byte| **byte == b' ').count();
        let line = &self.rest[spaces..];
        if let [b'"', text @ ..] = line {
            let end = text.iter().position(|byte| *byte == b'"').ok_or(BAD_COMMAND)?;
            self.rest = &text[end + 1..];
            ensure(end <= MOST_TEXT && !text[..end].contains(&b'\\'), BAD_COMMAND)?;
            ensure(matches!(self.rest, [] | [b' ', ..]), BAD_COMMAND)?;
            return Ok(&line[..end + 1]);
        }
        let end = line.iter().position(|byte| *byte == b' ').unwrap_or(line.len());
        let (word, rest) = line.split_at(end);
        self.rest = rest;
        if word.is_empty() { Err(BAD_COMMAND) } else { Ok(word) }
    }

    fn plain(&mut self) -> Answer<&'a [u8]> {
        let word = self.next()?;
        if word[0] == b'"' { Err(BAD_COMMAND) } else { Ok(word) }
    }

    fn text(&mut self) -> Answer<&'a [u8]> {
        self.next()?.strip_prefix(b"\"").ok_or(BAD_COMMAND)
    }

    fn number(&mut self) -> Answer<i64> {
        number_of(self.plain()?)
    }

    fn name(&mut self) -> Answer<&'a [u8]> {
        let name = self.plain()?;
        let is_letter = |byte: &u8| byte.is_ascii_alphanumeric() || *byte == b'_';
        ensure(name.len() <= MOST_NAME && name[0].is_ascii_alphabetic() && name.iter().all(is_letter), BAD_COMMAND)?;
        Ok(name)
    }

    fn letters(&mut self) -> Answer<[u8; 14]> {
        let letters: [u8; 14] = self.plain()?.try_into().map_err(|_| BAD_COMMAND)?;
        ensure(letters.iter().all(|letter| b"ZIVSA".contains(letter)), BAD_COMMAND)?;
        Ok(letters)
    }

    fn place(&mut self) -> Answer<Place> {
        Ok(match self.plain()? {
            b"G" => Place::Graph,
            [b'V', digits @ ..] => Place::Vertex(index_of(digits)?),
            [b'A', digits @ ..] => Place::Arc(index_of(digits)?),
            _ => return Err(BAD_COMMAND),
        })
    }

    fn value(&mut self) -> Answer<Util> {
        Ok(match self.next()? {
            b"\"" => Util::Zero,
            [b'"', text @ ..] => Util::Text(text.into()),
            [b'V', digits @ ..] => Util::Vertex(index_of(digits)?),
            [b'A', digits @ ..] => Util::Arc(index_of(digits)?),
            word => match number_of(word)? {
                0 => Util::Zero,
                number => Util::Int(number),
            },
        })
    }

    fn end(&self) -> Answer<()> {
        ensure(self.rest.iter().all(|byte| *byte == b' '), BAD_COMMAND)
    }
}

fn number_of(word: &[u8]) -> Answer<i64> {
    let magnitude = |digits| magnitude_of(digits).ok_or(BAD_COMMAND);
    if let [b'-', digits @ ..] = word {
        let number = magnitude(digits)?;
        ensure(number <= 1 << 63, BAD_COMMAND)?;
        return Ok((number as i64).wrapping_neg());
    }
    i64::try_from(magnitude(word)?).map_err(|_| BAD_COMMAND)
}

// Up to 18 digits need no look at each step.
fn magnitude_of(digits: &[u8]) -> Option<u64> {
    let is_short = digits.len() <= 18;
    let mut value = 0u64;
    for byte in digits {
        let digit = byte.wrapping_sub(b'0');
        if digit > 9 {
            return None;
        }
        value = if is_short {
            value * 10 + u64::from(digit)
        } else {
            value.checked_mul(10)?.checked_add(u64::from(digit))?
        };
    }
    if digits.is_empty() { None } else { Some(value) }
}

// Of a vertex or an arc; numbers that none has are all alike.
fn index_of(digits: &[u8]) -> Answer<u32> {
    match magnitude_of(digits) {
        Some(number) if number <= i64::MAX as u64 => Ok(u32::try_from(number).unwrap_or(arena::NONE)),
        _ => Err(BAD_COMMAND),
    }
}

// Graphs.

#[derive(Clone, Copy)]
enum Place {
    Graph,
    Vertex(u32),
    Arc(u32),
}

const FIELDS: [&str; 6] = ["u", "v", "w", "x", "y", "z"];
const ARC_FIELDS: [&str; 2] = ["a", "b"];
const GRAPH_FIELDS: [&str; 6] = ["uu", "vv", "ww", "xx", "yy", "zz"];

impl Place {
    fn fields(self) -> &'static [&'static str] {
        match self {
            Place::Graph => &GRAPH_FIELDS,
            Place::Vertex(_) => &FIELDS,
            Place::Arc(_) => &ARC_FIELDS,
        }
    }
}

const SIX: [Util; 6] = [const { Util::Zero }; 6];
const TWO: [Util; 2] = [const { Util::Zero }; 2];

#[derive(Default)]
struct Vertex {
    label: Box<[u8]>,
    fields: Option<Box<[Util; 6]>>,
}

struct Graph {
    name: Box<[u8]>,
    id: Box<[u8]>,
    types: [u8; 14],
    fields: [Util; 6],
    vertices: Vec<Vertex>,
    arena: Arena,
}

impl Graph {
    fn new(name: &[u8], n: u32) -> Graph {
        let mut vertices = Vec::new();
        vertices.resize_with(n as usize, Vertex::default);
        let id = format!("gb_new_graph({n})").into_bytes().into();
        Graph { name: name.into(), id, types: [b'Z'; 14], fields: SIX, vertices, arena: Arena::new(n) }
    }

    fn vertex(&self, v: i64) -> Answer<u32> {
        ensure(v >= 0 && v < self.vertices.len() as i64, BAD_OPERAND)?;
        Ok(v as u32)
    }

    fn arc(&self, k: i64) -> Answer<u32> {
        u32::try_from(k).ok().filter(|k| self.arena.is_live(*k)).ok_or(BAD_OPERAND)
    }

    fn check_field(&self, place: Place, value: &Util) -> Answer<()> {
        let is_vertex = |v: u32| (v as usize) < self.vertices.len();
        let has_place = match place {
            Place::Graph => true,
            Place::Vertex(v) => is_vertex(v),
            Place::Arc(k) => self.arena.is_live(k),
        };
        let names_one = match value {
            Util::Vertex(v) => is_vertex(*v),
            Util::Arc(k) => self.arena.is_live(*k),
            _ => true,
        };
        ensure(has_place && names_one, BAD_OPERAND)
    }

    // The field gets the value, and the value is what the field had.
    fn swap_field(&mut self, place: Place, field: u8, value: &mut Util) {
        let field = field as usize;
        let held = match place {
            Place::Graph => &mut self.fields[field],
            Place::Vertex(v) => &mut self.vertices[v as usize].fields.get_or_insert_with(|| Box::new(SIX))[field],
            Place::Arc(k) => &mut self.arena.fields_mut(k).get_or_insert_with(|| Box::new(TWO))[field],
        };
        swap(held, value);
        let gained = if let Util::Arc(k) = held { Some(*k) } else { None };
        if let Util::Arc(k) = value {
            self.arena.arcs[*k as usize].names -= 1;
        }
        if let Some(k) = gained {
            self.arena.arcs[k as usize].names += 1;
        }
    }

    fn tell_counts(&self, out: &mut Output) {
        out.put(&self.name);
        out.put_with(b": ", self.vertices.len() as u64);
        out.put_with(b" vertices, ", u64::from(self.arena.live()));
        out.put(b" arcs\n");
    }

    fn show(&self, out: &mut Output) {
        out.put_quoted(&self.id);
        out.put(b" ");
        out.put(&self.types);
        out.put_with(b"\n", self.vertices.len() as u64);
        out.put_with(b" vertices, ", u64::from(self.arena.live()));
        out.put_with(b" arcs, ", self.arena.arcs.len() as u64);
        out.put(b" numbers\n");
        if self.fields.iter().any(|field| !matches!(field, Util::Zero)) {
            out.put(b"G");
            show_fields(&GRAPH_FIELDS, &self.fields, out);
        }
        for (v, vertex) in self.vertices.iter().enumerate() {
            out.put_with(b"V", v as u64);
            out.put(b" ");
            out.put_quoted(&vertex.label);
            show_fields(&FIELDS, vertex.fields.as_deref().unwrap_or(&SIX), out);
            for (k, arc) in self.arena.walk(v as u32) {
                out.put_with(b"  A", u64::from(k));
                out.put_with(b" V", u64::from(arc.tip));
                out.put(b" ");
                out.put_signed(arc.len);
                match self.arena.fields_of(k) {
                    Some(fields) => show_fields(&ARC_FIELDS, fields, out),
                    None => out.put(b"\n"),
                }
                out.pass_block();
            }
            out.pass_block();
        }
    }
}

fn show_fields(names: &[&str], fields: &[Util], out: &mut Output) {
    for (name, field) in names.iter().zip(fields) {
        if matches!(field, Util::Zero) {
            continue;
        }
        out.put(b" ");
        out.put(name.as_bytes());
        out.put(b"=");
        match field {
            Util::Zero => {}
            Util::Int(number) => out.put_signed(*number),
            Util::Vertex(v) => out.put_with(b"V", u64::from(*v)),
            Util::Arc(k) => out.put_with(b"A", u64::from(*k)),
            Util::Text(text) => out.put_quoted(text),
        }
    }
    out.put(b"\n");
}

// The session, and the steps that change it.

struct Source {
    flip: Flip,
    seed: u32,
    draws: u64,
}

impl Source {
    fn new(seed: i64) -> Source {
        Source { flip: Flip::new(seed), seed: (seed & 0x7fff_ffff) as u32, draws: 0 }
    }
}

// A step holds what it puts in place; done, it holds what stood there before, so that most are undone as they are done.
enum Step {
    Seed(Box<Source>),
    Next,
    Unif { bound: u32, draws: u32 },
    Make(Option<Box<Graph>>),
    Insert { at: u8, directed: bool, from: u32, to: u32, len: i64 },
    Cut { at: u8, number: u32, cut: Option<Cut> },
    Len { at: u8, number: u32, len: i64 },
    Set { at: u8, field: u8, place: Place, value: Util },
    Types { at: u8, letters: [u8; 14] },
    Label { at: u8, vertex: u32, text: Box<[u8]> },
    Id { at: u8, text: Box<[u8]> },
    Drop { at: u8, graph: Option<Box<Graph>> },
}

struct Session {
    source: Source,
    table: Vec<Box<Graph>>,
}

impl Session {
    // Does a step that was found to be possible, and answers.
    fn perform(&mut self, step: &mut Step, out: &mut Output) {
        match step {
            Step::Next => {
                self.source.draws += 1;
                let number = self.source.flip.next();
                out.put_number(u64::from(number));
                return out.put(b"\n");
            }
            Step::Unif { bound, draws } => {
                let (number, count) = self.source.flip.uniform(Below::new(*bound));
                *draws = count;
                self.source.draws += u64::from(count);
                out.put_number(u64::from(number));
                return out.put(b"\n");
            }
            Step::Make(graph) => {
                graph.iter().for_each(|graph| graph.tell_counts(out));
                return self.table.extend(graph.take());
            }
            Step::Insert { at, directed, from, to, len } => {
                let arena = &mut self.table[*at as usize].arena;
                let number = arena.arcs.len() as u64;
                out.put_with(b"A", number);
                if !*directed {
                    out.put_with(b" A", number + 1);
                }
                let _ = arena.insert(*from, *to, *len, *directed);
                return out.put(b"\n");
            }
            Step::Cut { at, number, cut } => {
                let graph = &mut self.table[*at as usize];
                *cut = Some(graph.arena.cut(*number));
            }
            Step::Drop { at, graph } => *graph = Some(self.table.remove(*at as usize)),
            exchange => self.swap(exchange),
        }
        out.put(b"ok\n");
    }

    fn revert(&mut self, step: &mut Step) {
        match step {
            Step::Next => {
                self.source.draws -= 1;
                self.source.flip.back();
            }
            Step::Unif { draws, .. } => {
                self.source.draws -= u64::from(*draws);
                (0..*draws).for_each(|_| self.source.flip.back());
            }
            Step::Make(graph) => *graph = self.table.pop(),
            Step::Insert { at, directed, .. } => {
                self.table[*at as usize].arena.remove_last(if *directed { 1 } else { 2 });
            }
            Step::Cut { at, number, cut } => {
                let graph = &mut self.table[*at as usize];
                cut.take().into_iter().for_each(|cut| graph.arena.revert(*number, &cut));
            }
            Step::Drop { at, graph } => {
                graph.take().into_iter().for_each(|graph| self.table.insert(*at as usize, graph))
            }
            exchange => self.swap(exchange),
        }
    }

    // The steps that are undone as they are done.
    fn swap(&mut self, step: &mut Step) {
        match step {
            Step::Seed(source) => swap(&mut self.source, source),
            Step::Len { at, number, len } => swap(&mut self.table[*at as usize].arena.arcs[*number as usize].len, len),
            Step::Set { at, field, place, value } => self.table[*at as usize].swap_field(*place, *field, value),
            Step::Types { at, letters } => swap(&mut self.table[*at as usize].types, letters),
            Step::Label { at, vertex, text } => {
                swap(&mut self.table[*at as usize].vertices[*vertex as usize].label, text)
            }
            Step::Id { at, text } => swap(&mut self.table[*at as usize].id, text),
            _ => {}
        }
    }
}

// The lines of a script.

struct Shell {
    session: Session,
    // Those that stand, and behind them those that are undone, the last undone first.
    steps: Vec<Step>,
    standing: usize,
    lines: u64,
    refused: bool,
    out: Output,
}

impl Shell {
    fn new(out: Output) -> Shell {
        let session = Session { source: Source::new(0), table: Vec::new() };
        Shell { session, steps: Vec::new(), standing: 0, lines: 0, refused: false, out }
    }

    // A line, and whether each of its bytes may stand in one.
    fn take_line(&mut self, line: &[u8], is_clean: bool) {
        self.lines += 1;
        if let Err(Refusal(told)) = self.answer(line, is_clean) {
            self.refused = true;
            self.out.put_with(b"line ", self.lines);
            self.out.put(b": refused ");
            self.out.put(told.as_bytes());
            self.out.put(b"\n");
        }
        self.out.pass_block();
    }

    fn answer(&mut self, line: &[u8], is_clean: bool) -> Answer<()> {
        ensure(is_clean && line.len() <= MOST_LINE, BAD_COMMAND)?;
        if line.first() == Some(&b'#') || line.iter().all(|byte| *byte == b' ') {
            return Ok(());
        }
        let mut words = Words { rest: line };
        match words.plain()? {
            b"gen" => words.end().map(|()| self.tell_generator()),
            b"undo" => words.end().and_then(|()| self.undo()),
            b"redo" => words.end().and_then(|()| self.redo()),
            b"list" => words.end().map(|()| self.tell_list()),
            b"show" => {
                let name = words.name()?;
                words.end()?;
                let at = self.find(name).ok_or(NO_SUCH_GRAPH)?;
                self.session.table[at as usize].show(&mut self.out);
                Ok(())
            }
            command => {
                let mut step = match self.read_step(command, words) {
                    Err(refusal) if refusal == BAD_COMMAND => return Err(refusal),
                    _ if self.standing == MOST_STEPS => return Err(JOURNAL_IS_FULL),
                    read => read?,
                };
                self.session.perform(&mut step, &mut self.out);
                self.steps.truncate(self.standing);
                self.steps.push(step);
                self.standing += 1;
                Ok(())
            }
        }
    }

    fn tell_generator(&mut self) {
        let Source { flip, seed, draws } = &self.session.source;
        self.out.put_with(b"seed ", u64::from(*seed));
        self.out.put_with(b", draws ", *draws);
        self.out.put_with(b", unread ", flip.unread() as u64);
        self.out.put(b"\n");
    }

    fn tell_list(&mut self) {
        self.out.put_number(self.session.table.len() as u64);
        self.out.put(b" graphs\n");
        self.session.table.iter().for_each(|graph| graph.tell_counts(&mut self.out));
    }

    fn undo(&mut self) -> Answer<()> {
        let last = self.standing.checked_sub(1).ok_or(NOTHING_TO_UNDO)?;
        self.session.revert(&mut self.steps[last]);
        self.standing = last;
        self.out.put(b"undone\n");
        Ok(())
    }

    // What was possible before is so again.
    fn redo(&mut self) -> Answer<()> {
        let step = self.steps.get_mut(self.standing).ok_or(NOTHING_TO_REDO)?;
        self.session.perform(step, &mut self.out);
        self.standing += 1;
        Ok(())
    }

    fn find(&self, name: &[u8]) -> Option<u8> {
        self.session.table.iter().position(|graph| *graph.name == *name).map(|at| at as u8)
    }

    // The graph that a command changes.
    fn changed(&self, name: &[u8]) -> Answer<(u8, &Graph)> {
        let at = self.find(name).ok_or(NO_SUCH_GRAPH)?;
        Ok((at, &self.session.table[at as usize]))
    }

    // All words are read before the session is looked at.
    fn read_step(&self, command: &[u8], mut words: Words) -> Answer<Step> {
        match command {
            b"seed" => {
                let seed = words.number()?;
                words.end()?;
                Ok(Step::Seed(Box::new(Source::new(seed))))
            }
            b"next" => {
                words.end()?;
                Ok(Step::Next)
            }
            b"unif" => {
                let bound = words.number()?;
                words.end()?;
                ensure((1..=1 << 31).contains(&bound), BAD_SPECIFICATION)?;
                Ok(Step::Unif { bound: bound as u32, draws: 0 })
            }
            b"graph" => {
                let (name, n) = (words.name()?, words.number()?);
                words.end()?;
                self.read_graph(name, n)
            }
            b"arc" | b"edge" => {
                let (name, u, v, len) = (words.name()?, words.number()?, words.number()?, words.number()?);
                words.end()?;
                let (at, graph) = self.changed(name)?;
                let (from, to) = (graph.vertex(u)?, graph.vertex(v)?);
                let directed = command == b"arc";
                ensure(graph.arena.has_room(if directed { 1 } else { 2 }), TOO_LARGE)?;
                Ok(Step::Insert { at, directed, from, to, len })
            }
            b"drop" => {
                let name = words.name()?;
                words.end()?;
                let (at, _) = self.changed(name)?;
                Ok(Step::Drop { at, graph: None })
            }
            _ => self.read_edit(command, words),
        }
    }

    fn read_graph(&self, name: &[u8], n: i64) -> Answer<Step> {
        ensure(self.find(name).is_none(), NAME_IS_TAKEN)?;
        ensure(self.session.table.len() < MOST_GRAPHS, TABLE_IS_FULL)?;
        ensure(n >= 0, BAD_SPECIFICATION)?;
        ensure(n <= MOST_VERTICES as i64, TOO_LARGE)?;
        Ok(Step::Make(Some(Box::new(Graph::new(name, n as u32)))))
    }

    fn read_edit(&self, command: &[u8], mut words: Words) -> Answer<Step> {
        match command {
            b"cut" => {
                let (name, k) = (words.name()?, words.number()?);
                words.end()?;
                let (at, graph) = self.changed(name)?;
                let number = graph.arc(k)?;
                ensure(graph.arena.arcs[number as usize].names == 0, BAD_OPERAND)?;
                Ok(Step::Cut { at, number, cut: None })
            }
            b"len" => {
                let (name, k, len) = (words.name()?, words.number()?, words.number()?);
                words.end()?;
                let (at, graph) = self.changed(name)?;
                Ok(Step::Len { at, number: graph.arc(k)?, len })
            }
            b"set" => {
                let (name, place, field) = (words.name()?, words.place()?, words.plain()?);
                let field = place.fields().iter().position(|other| other.as_bytes() == field).ok_or(BAD_COMMAND)?;
                let value = words.value()?;
                words.end()?;
                let (at, graph) = self.changed(name)?;
                graph.check_field(place, &value)?;
                Ok(Step::Set { at, field: field as u8, place, value })
            }
            b"types" => {
                let (name, letters) = (words.name()?, words.letters()?);
                words.end()?;
                let (at, _) = self.changed(name)?;
                Ok(Step::Types { at, letters })
            }
            b"label" => {
                let (name, v, text) = (words.name()?, words.number()?, words.text()?);
                words.end()?;
                let (at, graph) = self.changed(name)?;
                Ok(Step::Label { at, vertex: graph.vertex(v)?, text: text.into() })
            }
            b"id" => {
                let (name, text) = (words.name()?, words.text()?);
                words.end()?;
                let (at, _) = self.changed(name)?;
                ensure(text.len() <= MOST_ID, BAD_OPERAND)?;
                Ok(Step::Id { at, text: text.into() })
            }
            _ => Err(BAD_COMMAND),
        }
    }
}

// Where a line ends, if it does, and whether no other byte is out of range.
fn find_end(bytes: &[u8]) -> (Option<usize>, bool) {
    let is_out = |byte: &u8| !(b' '..=b'~').contains(byte);
    match bytes.iter().position(is_out) {
        Some(at) if bytes[at] == b'\n' => (Some(at), true),
        Some(at) => (bytes[at..].iter().position(|byte| *byte == b'\n').map(|more| at + more), false),
        None => (None, true),
    }
}

// Lines are answered where they lie in the buffer; what is unfinished moves to its front, but no more of it than
// tells that a line is too long.
fn run(shell: &mut Shell, mut script: File) -> Result<(), &'static str> {
    let mut buffer = vec![0; BLOCK];
    let (mut held, mut taken) = (0, 0);
    loop {
        shell.out.flush();
        if shell.out.has_failed {
            return Err("write failed");
        }
        let room = (MOST_SCRIPT - taken).clamp(1, BLOCK - held);
        let count = script.read(&mut buffer[held..held + room]).map_err(|_| "read failed")?;
        taken += count;
        if taken > MOST_SCRIPT {
            return Err("too long");
        }
        let (mut start, end) = (0, held + count);
        while let (Some(length), is_clean) = find_end(&buffer[start..end]) {
            shell.take_line(&buffer[start..start + length], is_clean);
            start += length + 1;
        }
        held = (end - start).min(MOST_LINE + 1);
        buffer.copy_within(start..start + held, 0);
        if count == 0 {
            break;
        }
    }
    if held > 0 {
        let (_, is_clean) = find_end(&buffer[..held]);
        shell.take_line(&buffer[..held], is_clean);
    }
    shell.out.flush();
    if shell.out.has_failed { Err("write failed") } else { Ok(()) }
}

fn main() -> ExitCode {
    let opened = match std::env::args_os().nth(2) {
        Some(name) => File::open(name),
        None => std::io::stdin().as_fd().try_clone_to_owned().map(File::from),
    };
    let written = std::io::stdout().as_fd().try_clone_to_owned().map(File::from);
    let (Ok(script), Ok(file)) = (opened, written) else {
        eprintln!("plain_lines: cannot open");
        return ExitCode::from(2);
    };
    let mut shell = Shell::new(Output { bytes: Vec::with_capacity(2 * BLOCK), file, has_failed: false });
    match run(&mut shell, script) {
        Ok(()) => ExitCode::from(u8::from(shell.refused)),
        Err(fault) => {
            eprintln!("plain_lines: {fault}");
            ExitCode::from(2)
        }
    }
}
