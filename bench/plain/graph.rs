// A graph over the arena, for the plain programs beside this directory.
#![allow(dead_code)]

use crate::arena::{Arc, Arena, MOST_VERTICES, NONE, ONE, TooLarge, Util};

#[derive(Debug)]
pub enum Refusal {
    BadOperand,
    BadSpecs,
    CheckWrong,
    LengthRange,
    Stuck,
    Syntax,
    TooLarge,
}

impl From<TooLarge> for Refusal {
    fn from(_: TooLarge) -> Refusal {
        Refusal::TooLarge
    }
}

pub const ZEROS: [Util; 6] = [const { Util::Zero }; 6];

pub struct Graph {
    pub id: String,
    pub types: [u8; 14],
    pub fields: [Util; 6],
    pub labels: Vec<Box<[u8]>>,
    // Of the vertices, as far as a field of one was ever set.
    pub vertex_fields: Vec<[Util; 6]>,
    pub arena: Arena,
}

impl Graph {
    // Without vertices, but with room for so many.
    pub fn new(id: String, n: usize) -> Graph {
        let mut arena = Arena::new(0);
        arena.firsts.reserve(n);
        let (labels, vertex_fields) = (Vec::with_capacity(n), Vec::new());
        Graph { id, types: [b'Z'; 14], fields: ZEROS, labels, vertex_fields, arena }
    }

    // With vertices whose labels are their numbers.
    pub fn numbered(n: u32) -> Graph {
        let mut graph = Graph::new(format!("gb_new_graph({n})"), n as usize);
        for v in 0..n {
            let _ = graph.push_vertex(v.to_string().as_bytes());
        }
        graph
    }

    pub fn n(&self) -> u32 {
        self.labels.len() as u32
    }

    pub fn has_vertex(&self, v: u32) -> bool {
        (v as usize) < self.labels.len()
    }

    pub fn push_vertex(&mut self, label: &[u8]) -> Result<(), Refusal> {
        if self.labels.len() >= MOST_VERTICES {
            return Err(Refusal::TooLarge);
        }
        self.labels.push(label.into());
        self.arena.firsts.push(NONE);
        Ok(())
    }

    pub fn fields_of(&self, v: u32) -> &[Util; 6] {
        self.vertex_fields.get(v as usize).unwrap_or(&ZEROS)
    }

    pub fn fields_mut(&mut self, v: u32) -> &mut [Util; 6] {
        let (v, fields) = (v as usize, &mut self.vertex_fields);
        if fields.len() <= v {
            fields.reserve(self.labels.capacity() - fields.len());
            fields.resize_with(v + 1, || ZEROS);
        }
        &mut fields[v]
    }

    pub fn insert(&mut self, from: u32, to: u32, len: i64, directed: bool) -> Result<(), Refusal> {
        self.arena.insert(from, to, len, directed)?;
        Ok(())
    }

    // Gives each arc that a list reaches its owner. Lists do not meet or return, and tips are vertices, 0 or 1.
    pub fn link_lists(&mut self) -> Result<(), Refusal> {
        let n = self.n();
        self.arena.holes = self.arena.arcs.len() as u32;
        for v in 0..n {
            let mut link = self.arena.firsts[v as usize];
            while link != NONE {
                let arc = self.arena.arcs.get_mut(link as usize).ok_or(Refusal::Syntax)?;
                if arc.owner != NONE || (arc.tip >= n && arc.tip < ONE) {
                    return Err(Refusal::Syntax);
                }
                arc.owner = v;
                link = arc.next;
                self.arena.holes -= 1;
            }
        }
        self.arena.clear_holes();
        self.count_names()
    }

    // Counts for each arc the fields that name it. Each field names what is there.
    fn count_names(&mut self) -> Result<(), Refusal> {
        let of_vertices = self.vertex_fields.iter().flatten();
        let of_arcs = self.arena.fields.iter().flatten().flat_map(|fields| fields.iter());
        let mut named = Vec::new();
        for value in self.fields.iter().chain(of_vertices).chain(of_arcs) {
            match value {
                Util::Vertex(v) if !self.has_vertex(*v) => return Err(Refusal::Syntax),
                Util::Arc(number) if !self.arena.is_live(*number) => return Err(Refusal::Syntax),
                Util::Arc(number) => named.push(*number),
                _ => {}
            }
        }
        for number in named {
            self.arena.arcs[number as usize].names += 1;
        }
        Ok(())
    }

    // The tips and lengths of the list of a vertex, without the second halves of loops where it is not directed.
    pub fn spokes(&self, vertex: u32, directed: bool) -> impl Iterator<Item = (u32, i64)> + '_ {
        let arcs = &self.arena.arcs;
        let mut link = self.arena.firsts.get(vertex as usize).copied().unwrap_or(NONE);
        std::iter::from_fn(move || {
            let arc = arcs.get(link as usize)?;
            let is_second = arc.next == link + 1;
            link = arc.next;
            if !directed && arc.tip == arc.owner && is_second && arcs[link as usize].tip == arc.owner {
                link = arcs[link as usize].next;
            }
            Some((arc.tip, arc.len))
        })
    }

    // All arcs lead to vertices.
    pub fn check_operand(&self) -> Result<(), Refusal> {
        let leads_on = |arc: &Arc| arc.tip < ONE || arc.owner == NONE;
        if self.arena.arcs.iter().all(leads_on) { Ok(()) } else { Err(Refusal::BadOperand) }
    }
}

// Checks by which graphs are compared.
pub fn with_number(check: u64, number: u64) -> u64 {
    check.wrapping_mul(31).wrapping_add(number)
}

pub fn with_bytes(check: u64, bytes: &[u8]) -> u64 {
    bytes.iter().fold(check, |sum, byte| with_number(sum, u64::from(*byte)))
}

// A number that looks random.
pub fn mixed(number: u32) -> u32 {
    let a = number.wrapping_mul(2_654_435_761);
    let b = (a ^ (a >> 15)).wrapping_mul(2_246_822_519);
    b ^ (b >> 13)
}
