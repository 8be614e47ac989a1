//! The seeded number source of the generator (splitmix64).

pub struct Random(u64);

fn mixed(mut z: u64) -> u64 {
    z = (z ^ (z >> 30)).wrapping_mul(0xBF58_476D_1CE4_E5B9);
    z = (z ^ (z >> 27)).wrapping_mul(0x94D0_49BB_1331_11EB);
    z ^ (z >> 31)
}

impl Random {
    /// Different streams for the same seed and index give unrelated numbers.
    pub fn new(stream: u64, seed: u64, index: u64) -> Random {
        let start = mixed(seed.wrapping_add(0x9E37_79B9_7F4A_7C15));
        let start = mixed(start ^ index.wrapping_mul(0xD6E8_FEB8_6659_FD93));
        Random(mixed(
            start.wrapping_add(stream.wrapping_mul(0xA076_1D64_78BD_642F)),
        ))
    }

    pub fn next(&mut self) -> u64 {
        self.0 = self.0.wrapping_add(0x9E37_79B9_7F4A_7C15);
        mixed(self.0)
    }

    /// A number below `bound`, which is over 0.
    pub fn below(&mut self, bound: usize) -> usize {
        (self.next() % bound as u64) as usize
    }

    /// A number from `low` to `high`, both included.
    pub fn within(&mut self, low: usize, high: usize) -> usize {
        low + self.below(high - low + 1)
    }

    pub fn percent(&mut self, chance: usize) -> bool {
        self.below(100) < chance
    }

    pub fn coin(&mut self) -> bool {
        self.next() >> 63 == 1
    }

    pub fn byte(&mut self) -> u8 {
        (self.next() >> 56) as u8
    }

    /// So many bytes, eight of each number drawn.
    pub fn bytes(&mut self, count: usize) -> Vec<u8> {
        let mut bytes = Vec::with_capacity(count + 8);
        while bytes.len() < count {
            bytes.extend(self.next().to_le_bytes());
        }
        bytes.truncate(count);
        bytes
    }

    pub fn word(&mut self) -> u16 {
        (self.next() >> 48) as u16
    }

    /// A row's value of some of the lowest bits, all those of `most`; one in 64 is `most` itself.
    pub fn value(&mut self, most: u16) -> u16 {
        let number = self.next();
        if number % 64 == 0 {
            most
        } else {
            (number >> 48) as u16 & most
        }
    }

    pub fn pick<T: Copy>(&mut self, from: &[T]) -> T {
        from[self.below(from.len())]
    }

    pub fn shuffle<T>(&mut self, list: &mut [T]) {
        for last in (1..list.len()).rev() {
            let other = self.below(last + 1);
            list.swap(last, other);
        }
    }

    /// The numbers below `count` in a random order.
    pub fn permutation(&mut self, count: usize) -> Vec<u8> {
        let mut list: Vec<u8> = (0..count as u8).collect();
        self.shuffle(&mut list);
        list
    }
}
