// The generator, for the plain programs beside this directory.
#![allow(dead_code)]

#[derive(Clone)]
pub struct Flip {
    words: [u32; 55],
    unread: usize,
}

fn less(a: u32, b: u32) -> u32 {
    a.wrapping_sub(b) & 0x7fff_ffff
}

fn more(a: u32, b: u32) -> u32 {
    a.wrapping_add(b) & 0x7fff_ffff
}

impl Flip {
    pub fn new(seed: i64) -> Flip {
        let mut flip = Flip { words: [0; 55], unread: 54 };
        let mut bits = (seed & 0x7fff_ffff) as u32;
        let (mut before, mut now) = (bits, 1);
        flip.words[54] = before;
        let mut i = 21;
        while i != 0 {
            flip.words[i - 1] = now;
            now = less(before, now);
            bits = (bits >> 1) | ((bits & 1) << 30);
            now = less(now, bits);
            before = flip.words[i - 1];
            i = (i + 21) % 55;
        }
        for _ in 0..5 {
            flip.cycle();
        }
        flip
    }

    #[inline(never)]
    fn cycle(&mut self) {
        let words = &mut self.words;
        for i in 0..24 {
            words[i] = less(words[i], words[i + 31]);
        }
        for i in 24..55 {
            words[i] = less(words[i], words[i - 24]);
        }
    }

    // The same steps undone, from the last on.
    #[inline(never)]
    fn uncycle(&mut self) {
        let words = &mut self.words;
        for i in (24..55).rev() {
            words[i] = more(words[i], words[i - 24]);
        }
        for i in (0..24).rev() {
            words[i] = more(words[i], words[i + 31]);
        }
    }

    #[inline]
    pub fn next(&mut self) -> u32 {
        if self.unread == 0 {
            self.cycle();
            self.unread = 55;
        }
        self.unread -= 1;
        self.words[self.unread]
    }

    #[inline]
    pub fn back(&mut self) {
        self.unread += 1;
        if self.unread == 55 {
            self.uncycle();
            self.unread = 0;
        }
    }

    // A number below a bound, and how many were drawn for it.
    #[inline]
    pub fn uniform(&mut self, below: Below) -> (u32, u32) {
        let mut draws = 1;
        loop {
            let number = self.next();
            if number < below.end {
                return (number % below.bound, draws);
            }
            draws += 1;
        }
    }

    pub fn unread(&self) -> usize {
        self.unread
    }
}

// The numbers below a bound, and the greatest multiple of it that draws stay below.
#[derive(Clone, Copy)]
pub struct Below {
    pub bound: u32,
    pub end: u32,
}

impl Below {
    pub fn new(bound: u32) -> Below {
        Below { bound, end: 0x8000_0000 - 0x8000_0000 % bound }
    }
}
