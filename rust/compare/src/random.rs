//! A small generator of numbers (splitmix64): the same seed gives the same case everywhere.

pub struct Random {
    state: u64,
}

impl Random {
    pub fn new(seed: u64) -> Random {
        Random { state: seed }
    }

    fn next(&mut self) -> u64 {
        self.state = self.state.wrapping_add(0x9e37_79b9_7f4a_7c15);
        let mut mixed = self.state;
        mixed = (mixed ^ (mixed >> 30)).wrapping_mul(0xbf58_476d_1ce4_e5b9);
        mixed = (mixed ^ (mixed >> 27)).wrapping_mul(0x94d0_49bb_1331_11eb);
        mixed ^ (mixed >> 31)
    }

    /// A number below the bound; 0 where there is none.
    pub fn below(&mut self, bound: usize) -> usize {
        if bound == 0 {
            0
        } else {
            (self.next() % bound as u64) as usize
        }
    }

    /// A number from the first to the last, both included.
    pub fn between(&mut self, first: usize, last: usize) -> usize {
        first + self.below(last - first + 1)
    }

    pub fn chance(&mut self, percent: usize) -> bool {
        self.below(100) < percent
    }

    pub fn pick<'e, T>(&mut self, elements: &'e [T]) -> Option<&'e T> {
        elements.get(self.below(elements.len()))
    }
}

/// One of some phrases.
pub fn one<'p>(phrases: &[&'p str], random: &mut Random) -> &'p str {
    phrases[random.below(phrases.len())]
}

pub fn shuffle<T>(elements: &mut [T], random: &mut Random) {
    for index in (1..elements.len()).rev() {
        elements.swap(index, random.below(index + 1));
    }
}

/// Puts an element anywhere into a list.
pub fn insert<T>(list: &mut Vec<T>, element: T, random: &mut Random) {
    let place = random.below(list.len() + 1);
    list.insert(place, element);
}
