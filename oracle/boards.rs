//! Boards, and numbers that are the same in every run.

/// Numbers by splitmix64.
pub struct Dice(pub u64);

impl Dice {
    /// The next number.
    fn next(&mut self) -> u64 {
        self.0 = self.0.wrapping_add(0x9E37_79B9_7F4A_7C15);
        let mut z = self.0;
        z = (z ^ (z >> 30)).wrapping_mul(0xBF58_476D_1CE4_E5B9);
        z = (z ^ (z >> 27)).wrapping_mul(0x94D0_49BB_1331_11EB);
        z ^ (z >> 31)
    }

    /// A number below n.
    pub fn below(&mut self, n: usize) -> usize {
        (self.next() % n as u64) as usize
    }

    /// A number from the first to the last.
    pub fn from_to(&mut self, first: usize, last: usize) -> usize {
        first + self.below(last - first + 1)
    }

    /// So many bytes.
    pub fn bytes(&mut self, count: usize) -> Vec<u8> {
        (0..count).map(|_| self.next() as u8).collect()
    }
}

/// Rows, columns, and values row after row.
pub struct Board {
    pub rows: usize,
    pub columns: usize,
    pub values: Vec<i32>,
}

impl Board {
    /// How many cells.
    pub fn cells(&self) -> usize {
        self.rows * self.columns
    }

    /// A grid on which about so many cells of a hundred are mines, and the safe cells have the value 0.
    pub fn plain(dice: &mut Dice, rows: usize, columns: usize, percent: usize) -> Board {
        let mut value = |_| if dice.below(100) < percent { -1 } else { 0 };
        let values = (0..rows * columns).map(&mut value).collect();
        Board {
            rows,
            columns,
            values,
        }
    }

    /// The rows as the Rust takes them.
    pub fn by_rows(&self) -> Vec<Vec<i32>> {
        self.values
            .chunks(self.columns)
            .map(<[i32]>::to_vec)
            .collect()
    }
}
