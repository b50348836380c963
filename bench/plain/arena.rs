// The arcs of a graph in an arena of 24 bytes an arc, for the plain programs beside this directory: fields, which few
// arcs have, are stored separately.
#![allow(dead_code)]

use std::mem::replace;

pub const MOST_VERTICES: usize = 65_535;
pub const MOST_ARCS: usize = 1_000_000;
// No arc, and the owner of a hole.
pub const NONE: u32 = u32::MAX;
// Tips that are no vertex.
pub const ONE: u32 = u32::MAX - 1;
pub const ZERO: u32 = u32::MAX;

pub enum Util {
    Zero,
    Int(i64),
    Vertex(u32),
    Arc(u32),
    Text(Box<[u8]>),
}

pub struct Arc {
    pub owner: u32,
    pub tip: u32,
    pub next: u32,
    // How many fields name this arc.
    pub names: u32,
    pub len: i64,
}

const _: () = assert!(size_of::<Arc>() == 24);

pub type Fields = Option<Box<[Util; 2]>>;

pub struct Arena {
    // Of each vertex the first arc of its list.
    pub firsts: Vec<u32>,
    pub arcs: Vec<Arc>,
    // Of the arcs, as far as a field of one was ever set.
    pub fields: Vec<Fields>,
    pub holes: u32,
}

// Whose a cut arc was, and how many arcs stood before it. The arc itself stays in its hole.
pub struct Cut {
    owner: u32,
    place: u32,
}

pub struct TooLarge;

impl Arena {
    pub fn new(n: u32) -> Arena {
        Arena { firsts: vec![NONE; n as usize], arcs: Vec::new(), fields: Vec::new(), holes: 0 }
    }

    pub fn n(&self) -> u32 {
        self.firsts.len() as u32
    }

    pub fn live(&self) -> u32 {
        self.arcs.len() as u32 - self.holes
    }

    // Room for so many arcs, or for as many as a graph may have.
    pub fn reserve(&mut self, count: usize) {
        self.arcs.reserve_exact(count.min(MOST_ARCS));
    }

    pub fn has_room(&self, count: usize) -> bool {
        self.arcs.len() + count <= MOST_ARCS
    }

    // Room for arcs more, or the refusal: there is never room for more than a graph may have.
    #[inline]
    fn make_room(&mut self, count: usize) -> Result<(), TooLarge> {
        if self.arcs.capacity() - self.arcs.len() >= count { Ok(()) } else { self.grow(count) }
    }

    // Room for as many arcs more as there are, and for so many.
    #[cold]
    fn grow(&mut self, count: usize) -> Result<(), TooLarge> {
        if !self.has_room(count) {
            return Err(TooLarge);
        }
        let room = (2 * self.arcs.len()).clamp(64, MOST_ARCS).max(self.arcs.len() + count);
        self.arcs.reserve_exact(room - self.arcs.len());
        Ok(())
    }

    #[inline]
    fn link(&mut self, owner: u32, number: u32) -> u32 {
        replace(&mut self.firsts[owner as usize], number)
    }

    #[inline]
    pub fn new_arc(&mut self, from: u32, to: u32, len: i64) -> Result<u32, TooLarge> {
        self.make_room(1)?;
        let number = self.arcs.len() as u32;
        let next = self.link(from, number);
        self.arcs.push(Arc { owner: from, tip: to, next, names: 0, len });
        Ok(number)
    }

    // The arc from the larger end is linked first, so that of a loop the first arc stands before the second.
    #[inline]
    pub fn new_edge(&mut self, from: u32, to: u32, len: i64) -> Result<u32, TooLarge> {
        self.make_room(2)?;
        let number = self.arcs.len() as u32;
        let (low, high) = (from.min(to), from.max(to));
        let second = self.link(high, number + 1);
        let first = self.link(low, number);
        self.arcs.extend([
            Arc { owner: low, tip: high, next: first, names: 0, len },
            Arc { owner: high, tip: low, next: second, names: 0, len },
        ]);
        Ok(number)
    }

    #[inline]
    pub fn insert(&mut self, from: u32, to: u32, len: i64, directed: bool) -> Result<u32, TooLarge> {
        if directed { self.new_arc(from, to, len) } else { self.new_edge(from, to, len) }
    }

    // Takes the last arcs back, each of which is first in its list once those before it are gone.
    pub fn remove_last(&mut self, count: usize) {
        let kept = self.arcs.len() - count;
        for arc in &self.arcs[kept..] {
            self.firsts[arc.owner as usize] = arc.next;
        }
        self.arcs.truncate(kept);
        self.fields.truncate(kept);
    }

    pub fn is_live(&self, number: u32) -> bool {
        self.arcs.get(number as usize).is_some_and(|arc| arc.owner != NONE)
    }

    pub fn fields_of(&self, number: u32) -> Option<&[Util; 2]> {
        self.fields.get(number as usize)?.as_deref()
    }

    // The place of the fields of an arc.
    pub fn fields_mut(&mut self, number: u32) -> &mut Fields {
        let number = number as usize;
        if self.fields.len() <= number {
            self.fields.resize_with(number + 1, || None);
        }
        &mut self.fields[number]
    }

    // Holes have no fields.
    pub fn clear_holes(&mut self) {
        for (arc, fields) in self.arcs.iter().zip(&mut self.fields) {
            if arc.owner == NONE {
                *fields = None;
            }
        }
    }

    // The link behind an arc of a list, or in front of the whole list.
    fn link_behind(&mut self, owner: u32, before: u32) -> &mut u32 {
        if before == NONE { &mut self.firsts[owner as usize] } else { &mut self.arcs[before as usize].next }
    }

    // Counts the arcs that the fields of an arc name, or no longer counts them.
    fn count_names(&mut self, number: u32, are_counted: bool) {
        let Some(fields) = self.fields_of(number) else { return };
        let named = [0, 1].map(|i| if let Util::Arc(k) = fields[i] { Some(k) } else { None });
        for k in named.into_iter().flatten() {
            let names = &mut self.arcs[k as usize].names;
            *names = if are_counted { *names + 1 } else { *names - 1 };
        }
    }

    // Of a live arc.
    pub fn cut(&mut self, number: u32) -> Cut {
        let Arc { owner, next, .. } = self.arcs[number as usize];
        let (mut before, mut link, mut place) = (NONE, self.firsts[owner as usize], 0);
        while link != number {
            before = link;
            link = self.arcs[link as usize].next;
            place += 1;
        }
        *self.link_behind(owner, before) = next;
        self.arcs[number as usize].owner = NONE;
        self.count_names(number, false);
        self.holes += 1;
        Cut { owner, place }
    }

    pub fn revert(&mut self, number: u32, cut: &Cut) {
        self.count_names(number, true);
        let mut before = NONE;
        for _ in 0..cut.place {
            before = *self.link_behind(cut.owner, before);
        }
        *self.link_behind(cut.owner, before) = number;
        self.arcs[number as usize].owner = cut.owner;
        self.holes -= 1;
    }

    #[inline]
    pub fn walk(&self, vertex: u32) -> Walk<'_> {
        Walk { arcs: &self.arcs, next: self.firsts[vertex as usize] }
    }
}

// The arcs of a list, with their numbers.
pub struct Walk<'a> {
    arcs: &'a [Arc],
    next: u32,
}

impl<'a> Iterator for Walk<'a> {
    type Item = (u32, &'a Arc);

    #[inline]
    fn next(&mut self) -> Option<(u32, &'a Arc)> {
        let number = self.next;
        let arc = self.arcs.get(number as usize)?;
        self.next = arc.next;
        Some((number, arc))
    }
}
