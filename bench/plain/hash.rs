// A map with a fast hash, folded products, and an index of rows, for the plain programs beside this directory.
#![allow(dead_code)]

use std::collections::HashMap;
use std::hash::{BuildHasherDefault, Hasher};

pub type FastMap<K, V> = HashMap<K, V, BuildHasherDefault<FoldHasher>>;

#[derive(Default)]
pub struct FoldHasher(u64);

impl FoldHasher {
    fn add(&mut self, number: u64) {
        let product = u128::from(self.0 ^ number) * 0x9e37_79b9_7f4a_7c15;
        self.0 = product as u64 ^ (product >> 64) as u64;
    }
}

impl Hasher for FoldHasher {
    fn write(&mut self, bytes: &[u8]) {
        let (eights, rest) = bytes.as_chunks();
        eights.iter().for_each(|eight| self.add(u64::from_le_bytes(*eight)));
        match bytes.last_chunk() {
            Some(eight) if !rest.is_empty() => self.add(u64::from_le_bytes(*eight)),
            _ => rest.iter().for_each(|byte| self.add(u64::from(*byte))),
        }
    }

    fn write_u32(&mut self, number: u32) {
        self.add(u64::from(number));
    }

    fn write_usize(&mut self, number: usize) {
        self.add(number as u64);
    }

    fn finish(&self) -> u64 {
        self.0
    }
}

// Where each row is among rows of one width, by open addressing: smaller than a map that keeps the rows too.
pub struct RowIndex<'a> {
    rows: &'a [u8],
    width: usize,
    places: Vec<u32>,
}

const FREE: u32 = u32::MAX;

impl<'a> RowIndex<'a> {
    pub fn new(rows: &'a [u8], width: usize) -> RowIndex<'a> {
        let places = vec![FREE; (3 * rows.len() / width + 1).next_power_of_two()];
        let mut index = RowIndex { rows, width, places };
        for (row, number) in rows.chunks_exact(width).zip(0..) {
            let place = index.place_of(row);
            index.places[place] = number;
        }
        index
    }

    // Where a row is in the table, or may be put.
    fn place_of(&self, row: &[u8]) -> usize {
        let mut hasher = FoldHasher::default();
        hasher.write(row);
        let mut place = hasher.finish() as usize;
        loop {
            place &= self.places.len() - 1;
            let number = self.places[place] as usize;
            if number == FREE as usize || &self.rows[number * self.width..][..self.width] == row {
                return place;
            }
            place += 1;
        }
    }

    pub fn get(&self, row: &[u8]) -> Option<u32> {
        Some(self.places[self.place_of(row)]).filter(|number| *number != FREE)
    }
}
