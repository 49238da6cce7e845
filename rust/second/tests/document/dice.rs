//! Inputs that nobody chose.

/// Numbers that look random and are the same each time.
pub struct Dice(u64);

impl Dice {
    pub fn new(seed: u64) -> Dice {
        Dice(seed)
    }

    /// 0 to sides - 1.
    pub fn roll(&mut self, sides: u32) -> u32 {
        self.0 = self.0.wrapping_mul(6_364_136_223_846_793_005).wrapping_add(1_442_695_040_888_963_407);
        ((self.0 >> 33) % u64::from(sides)) as u32
    }

    pub fn bytes(&mut self, count: usize, sides: u32) -> Vec<u8> {
        (0..count).map(|_| self.roll(sides) as u8).collect()
    }

    /// Records that pass most tests: a small first byte, small operands.
    pub fn records(&mut self, count: u32) -> Vec<u8> {
        (0..count)
            .flat_map(|place| {
                let first = 1 + self.roll(8) as u8;
                let left = self.roll(place + 1) as u8;
                let right = self.roll(place + 3) as u8;
                match self.roll(3) {
                    0 => [first, 0, left, 0, right, 0, 0, 0],
                    1 => [first, 0, 0, 0, right, 0, 0, 0],
                    _ => [first, 0, left, 0, 0, 0, 0, 0],
                }
            })
            .collect()
    }
}
