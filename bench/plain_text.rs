// The same writer and reader of saved texts in plain Rust, and how long they take for a byte of the text.
use std::time::Instant;

#[path = "plain/arena.rs"]
mod arena;
#[path = "plain/digits.rs"]
mod digits;
#[path = "plain/graph.rs"]
mod graph;

use arena::{Arc, MOST_ARCS, MOST_VERTICES, NONE, ONE, Util, ZERO};
use digits::{LONGEST, put_digits};
use graph::{Graph, Refusal, mixed, with_bytes};

const WIDTH: usize = 79;
const PART: usize = 78;
const PRIME: u64 = (1 << 30) - 83;
const BLOCK: usize = 32;
const ALPHABET: &[u8; 95] = b"0123456789ABCDEFGHIJKLMNOPQRSTUVWXYZabcdefghijklmnopqrstuvwxyz_^~&@,;.:?!%#$+-*/|\\<=>()[]{}`'\" ";

// Of each byte its place in the alphabet.
fn codes() -> [u8; 256] {
    let mut codes = [95; 256];
    for (code, byte) in (0..).zip(ALPHABET) {
        codes[usize::from(*byte)] = code;
    }
    codes
}

// The sum is reduced once for a block.
fn check_number(body: &[u8]) -> u64 {
    let codes = codes();
    let mut sum = 0;
    for line in body.split_inclusive(|byte| *byte == b'\n').filter(|line| line[0] != b'*') {
        for block in line.chunks(BLOCK) {
            sum = block.iter().fold(sum, |sum, byte| sum * 2 + u64::from(codes[usize::from(*byte)])) % PRIME;
        }
    }
    sum
}

struct Page {
    text: Vec<u8>,
    column: usize,
}

impl Page {
    // Ends the line where so many bytes do not fit.
    fn make_room(&mut self, width: usize) {
        if self.column > 0 && self.column + width > WIDTH {
            self.text.push(b'\n');
            self.column = 0;
        }
        self.column += width;
    }

    // A mark, unless it is 0, a number, and a comma where more follow.
    fn number(&mut self, mark: u8, number: u64, more: bool) {
        let mut bytes = [b','; 2 * LONGEST];
        let end = if more { LONGEST - 1 } else { LONGEST };
        let mut at = put_digits(&mut bytes, end, number);
        if mark != 0 {
            at -= 1;
            bytes[at] = mark;
        }
        self.make_room(LONGEST - at);
        self.text.extend_from_slice(&bytes[at..LONGEST]);
    }

    fn signed(&mut self, number: i64, more: bool) {
        self.number(if number < 0 { b'-' } else { 0 }, number.unsigned_abs(), more);
    }

    fn link(&mut self, link: u32, more: bool) {
        if link == NONE { self.number(0, 0, more) } else { self.number(b'A', u64::from(link), more) }
    }

    fn tip(&mut self, tip: u32, more: bool) {
        match tip {
            ZERO => self.number(0, 0, more),
            ONE => self.number(0, 1, more),
            _ => self.number(b'V', u64::from(tip), more),
        }
    }

    // What does not fit on one line takes several.
    fn quoted(&mut self, bytes: &[u8], more: bool) {
        self.make_room(bytes.len() + if more { 3 } else { 2 });
        let start = self.text.len();
        self.text.push(b'"');
        self.text.extend_from_slice(bytes);
        self.text.extend_from_slice(if more { b"\"," } else { b"\"" });
        if self.text.len() - start > WIDTH {
            let mut rest = &self.text.split_off(start)[..];
            while rest.len() > WIDTH {
                self.text.extend_from_slice(&rest[..PART]);
                self.text.extend_from_slice(b"\\\n");
                rest = &rest[PART..];
            }
            self.text.extend_from_slice(rest);
            self.column = rest.len();
        }
    }

    // The fields of these letters and the end of the record. Answers how many are written as Zero.
    fn fields(&mut self, letters: &[u8], values: &[Util]) -> u64 {
        let mut cleaned = 0;
        for (i, (letter, value)) in letters.iter().zip(values).enumerate() {
            let more = is_any_written(&letters[i + 1..]);
            match (letter, value) {
                (b'I', Util::Int(number)) => self.signed(*number, more),
                (b'V' | b'A', Util::Int(1)) => self.number(0, 1, more),
                (b'V', Util::Vertex(v)) => self.number(b'V', u64::from(*v), more),
                (b'A', Util::Arc(k)) => self.number(b'A', u64::from(*k), more),
                (b'S', Util::Text(text)) => self.quoted(text, more),
                (letter, value) => {
                    cleaned += !matches!(value, Util::Zero) as u64;
                    match letter {
                        b'Z' => {}
                        b'S' => self.quoted(b"", more),
                        _ => self.number(0, 0, more),
                    }
                }
            }
        }
        self.text.push(b'\n');
        self.column = 0;
        cleaned
    }
}

fn is_any_written(letters: &[u8]) -> bool {
    letters.iter().any(|letter| *letter != b'Z')
}

fn save(graph: &Graph) -> (Vec<u8>, u64) {
    let room = 64 + 5 * graph.labels.len() + 6 * graph.arena.arcs.len();
    let mut page = Page { text: Vec::with_capacity(room), column: 0 };
    page.text.extend_from_slice(b"* GraphBase graph (util_types ");
    page.text.extend_from_slice(&graph.types);
    page.text.extend_from_slice(format!(",{}V,{}A)\n", graph.labels.len(), graph.arena.arcs.len()).as_bytes());
    let start = page.text.len();
    let (vertex_letters, rest) = graph.types.split_at(6);
    let (arc_letters, graph_letters) = rest.split_at(2);
    page.quoted(graph.id.as_bytes(), true);
    page.number(0, graph.labels.len() as u64, true);
    page.number(0, u64::from(graph.arena.live()), is_any_written(graph_letters));
    let mut cleaned = page.fields(graph_letters, &graph.fields);
    page.text.extend_from_slice(b"* Vertices\n");
    let more = is_any_written(vertex_letters);
    for v in 0..graph.n() {
        page.quoted(&graph.labels[v as usize], true);
        page.link(graph.arena.firsts[v as usize], more);
        cleaned += page.fields(vertex_letters, graph.fields_of(v));
    }
    page.text.extend_from_slice(b"* Arcs\n");
    let more = is_any_written(arc_letters);
    for (number, arc) in (0..).zip(&graph.arena.arcs) {
        let (tip, next, len) = if arc.owner == NONE { (ZERO, NONE, 0) } else { (arc.tip, arc.next, arc.len) };
        page.tip(tip, true);
        page.link(next, true);
        page.signed(len, more);
        cleaned += page.fields(arc_letters, graph.arena.fields_of(number).unwrap_or(&[Util::Zero, Util::Zero]));
    }
    let number = check_number(&page.text[start..]);
    page.text.extend_from_slice(format!("* Checksum {number}\n").as_bytes());
    (page.text, cleaned)
}

// What is still to be read.
struct Reader<'a> {
    rest: &'a [u8],
}

type Read<T> = Result<T, Refusal>;

impl<'a> Reader<'a> {
    fn next(&mut self) -> Read<u8> {
        let (first, rest) = self.rest.split_first().ok_or(Refusal::Syntax)?;
        self.rest = rest;
        Ok(*first)
    }

    fn skip(&mut self, word: &[u8]) -> bool {
        let rest = self.rest.strip_prefix(word);
        self.rest = rest.unwrap_or(self.rest);
        rest.is_some()
    }

    fn word(&mut self, word: &[u8]) -> Read<()> {
        if self.skip(word) { Ok(()) } else { Err(Refusal::Syntax) }
    }

    fn comma(&mut self) -> Read<()> {
        self.word(b",")?;
        self.skip(b"\n");
        Ok(())
    }

    // Digits that spell a number up to `most`.
    fn digits(&mut self, most: u64) -> Read<u64> {
        let count = self.rest.iter().take_while(|byte| byte.is_ascii_digit()).count();
        let (digits, rest) = self.rest.split_at(count);
        self.rest = rest;
        let add = |value: u64, digit: &u8| value.saturating_mul(10).saturating_add(u64::from(digit - b'0'));
        let value = digits.iter().fold(0, add);
        if count == 0 || value > most { Err(Refusal::Syntax) } else { Ok(value) }
    }

    fn count(&mut self) -> Read<u64> {
        self.digits(i64::MAX as u64)
    }

    fn signed(&mut self) -> Read<i64> {
        if self.skip(b"-") { Ok((self.digits(1 << 63)? as i64).wrapping_neg()) } else { Ok(self.count()? as i64) }
    }

    fn index(&mut self) -> Read<u32> {
        Ok(self.count()?.min(u64::from(NONE - 2)) as u32)
    }

    fn link(&mut self) -> Read<u32> {
        match self.next()? {
            b'0' => Ok(NONE),
            b'A' => self.index(),
            _ => Err(Refusal::Syntax),
        }
    }

    fn tip(&mut self) -> Read<u32> {
        match self.next()? {
            b'0' => Ok(ZERO),
            b'1' => Ok(ONE),
            b'V' => self.index(),
            _ => Err(Refusal::Syntax),
        }
    }

    fn text(&mut self, limit: usize) -> Read<Box<[u8]>> {
        self.word(b"\"")?;
        let first = self.run();
        let mut more = Vec::new();
        while self.skip(b"\\\n") {
            if more.is_empty() {
                more.extend_from_slice(first);
            }
            more.extend_from_slice(self.run());
        }
        self.word(b"\"")?;
        let whole: Box<[u8]> = if more.is_empty() { first.into() } else { more.into() };
        if whole.len() > limit { Err(Refusal::Syntax) } else { Ok(whole) }
    }

    fn run(&mut self) -> &'a [u8] {
        let is_end = |byte: &u8| !(b' '..=b'~').contains(byte) || *byte == b'"' || *byte == b'\\';
        let count = self.rest.iter().position(is_end).unwrap_or(self.rest.len());
        let (run, rest) = self.rest.split_at(count);
        self.rest = rest;
        run
    }

    fn value(&mut self, letter: u8) -> Read<Util> {
        self.comma()?;
        Ok(match letter {
            b'I' => match self.signed()? {
                0 => Util::Zero,
                number => Util::Int(number),
            },
            b'S' => {
                let text = self.text(4095)?;
                if text.is_empty() { Util::Zero } else { Util::Text(text) }
            }
            _ => match self.next()? {
                b'0' => Util::Zero,
                b'1' => Util::Int(1),
                b'V' if letter == b'V' => Util::Vertex(self.index()?),
                b'A' if letter == b'A' => Util::Arc(self.index()?),
                _ => return Err(Refusal::Syntax),
            },
        })
    }

    // The fields of these letters, and the end of the record.
    fn fields<const N: usize>(&mut self, letters: &[u8], fields: &mut [Util; N]) -> Read<()> {
        for (field, letter) in fields.iter_mut().zip(letters) {
            if *letter != b'Z' {
                *field = self.value(*letter)?;
            }
        }
        self.word(b"\n")
    }
}

fn restore(text: &[u8], compares: bool) -> Result<Graph, Refusal> {
    let mut reader = Reader { rest: text };
    reader.word(b"* GraphBase graph (util_types ")?;
    let types: [u8; 14] = reader.rest.get(..14).and_then(|letters| letters.try_into().ok()).ok_or(Refusal::Syntax)?;
    if !types.iter().all(|letter| matches!(letter, b'Z' | b'I' | b'V' | b'S' | b'A')) {
        return Err(Refusal::Syntax);
    }
    reader.rest = &reader.rest[14..];
    reader.word(b",")?;
    let vertices = reader.count()?;
    reader.word(b"V,")?;
    let arcs = reader.count()?;
    reader.word(b"A)")?;
    if !matches!(reader.rest.first(), None | Some(b'\n')) {
        return Err(Refusal::Syntax);
    }
    if vertices > MOST_VERTICES as u64 || arcs > MOST_ARCS as u64 {
        return Err(Refusal::TooLarge);
    }
    reader.word(b"\n")?;
    let body = reader.rest;
    let mut graph = read_records(&mut reader, types, vertices, arcs)?;
    let body = &body[..body.len() - reader.rest.len()];
    reader.word(b"* Checksum ")?;
    let number = reader.signed()?;
    if !matches!(reader.rest.first(), None | Some(b'\n')) {
        return Err(Refusal::Syntax);
    }
    graph.link_lists()?;
    if compares && number >= 0 && number as u64 != check_number(body) {
        return Err(Refusal::CheckWrong);
    }
    Ok(graph)
}

// The records, with all arcs as holes; a count takes no more memory than its bytes can fill.
fn read_records(reader: &mut Reader, types: [u8; 14], vertices: u64, arcs: u64) -> Read<Graph> {
    let id = String::from_utf8(reader.text(160)?.into()).map_err(|_| Refusal::Syntax)?;
    reader.comma()?;
    let n = reader.count()?;
    reader.comma()?;
    reader.signed()?;
    let mut graph = Graph::new(id, (vertices as usize).min(reader.rest.len() / 5));
    graph.types = types;
    reader.fields(&types[8..], &mut graph.fields)?;
    if n > vertices {
        return Err(Refusal::Syntax);
    }
    reader.word(b"* Vertices\n")?;
    let have_fields = is_any_written(&types[..6]);
    for v in 0..vertices as u32 {
        let label = reader.text(4095)?;
        graph.labels.push(label);
        reader.comma()?;
        graph.arena.firsts.push(reader.link()?);
        if have_fields {
            reader.fields(&types[..6], graph.fields_mut(v))?;
        } else {
            reader.word(b"\n")?;
        }
    }
    graph.labels.truncate(n as usize);
    graph.vertex_fields.truncate(n as usize);
    graph.arena.firsts.truncate(n as usize);
    reader.word(b"* Arcs\n")?;
    graph.arena.reserve((arcs as usize).min(reader.rest.len() / 6));
    let have_fields = is_any_written(&types[6..8]);
    for _ in 0..arcs {
        let tip = reader.tip()?;
        reader.comma()?;
        let next = reader.link()?;
        reader.comma()?;
        let len = reader.signed()?;
        let mut fields = [Util::Zero, Util::Zero];
        reader.fields(&types[6..8], &mut fields)?;
        if have_fields {
            graph.arena.fields.push(Some(Box::new(fields)));
        }
        graph.arena.arcs.push(Arc { owner: NONE, tip, next, names: 0, len });
    }
    Ok(graph)
}

fn with_edges(n: u32, edges: u32) -> Graph {
    let mut graph = Graph::numbered(n);
    for i in 0..edges {
        let (from, to) = (mixed(2 * i) % n, mixed(2 * i + 1) % n);
        let _ = graph.insert(from, to, i64::from(1 + i % 1000), false);
    }
    graph
}

// A graph each of whose vertices and arcs has as many texts as it has fields; some of them take several lines.
fn with_texts() -> Graph {
    let mut graph = with_edges(20_000, 20_000);
    graph.types = *b"SSSSSSSSZZZZZZ";
    let text = |text: String| Util::Text(text.into_bytes().into());
    for v in 0..graph.n() {
        *graph.fields_mut(v) = [(); 6].map(|_| text(format!("a text of some forty bytes of vertex {v}")));
    }
    for k in 0..graph.arena.arcs.len() as u32 {
        let long = format!("a text of more than one line and of less than two, since such texts may be met, in the field b of arc {k}");
        *graph.arena.fields_mut(k) = Some(Box::new([text(format!("a short text, {k}")), text(long)]));
    }
    graph
}

// What a restored graph comes to is told by the text that is saved of it.
fn time_graph(saves: &str, restores: &str, graph: &Graph) {
    let start = Instant::now();
    let (text, _cleaned) = save(graph);
    let picoseconds = start.elapsed().as_nanos() * 1000 / text.len() as u128;
    println!("{saves} {picoseconds} {}", with_bytes(0, &text));
    let start = Instant::now();
    let restored = restore(&text, true);
    let picoseconds = start.elapsed().as_nanos() * 1000 / text.len() as u128;
    match restored {
        Ok(graph) => println!("{restores} {picoseconds} {}", with_bytes(0, &save(&graph).0)),
        Err(refusal) => eprintln!("{restores}: {refusal:?}"),
    }
}

fn main() {
    let sparse = with_edges(65_535, 300_000);
    let texts = with_texts();
    for _ in 0..5 {
        time_graph("save", "restore", &sparse);
        time_graph("save_texts", "restore_texts", &texts);
    }
}
