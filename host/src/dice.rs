//! Pseudo-random numbers: the same from the same seed, on every machine.

pub struct Dice(u64);

impl Dice {
    /// Shifting never leaves zero, so a seed of zero gets another.
    pub fn new(seed: u64) -> Dice {
        let mut dice = Dice(seed ^ 0x6D75_6C6C_6972_696D);
        dice.0 += u64::from(dice.0 == 0);
        // Small seeds differ in few bits; some turns spread them.
        for _ in 0..16 {
            dice.turn();
        }
        dice
    }

    pub fn turn(&mut self) -> u64 {
        self.0 ^= self.0 << 13;
        self.0 ^= self.0 >> 7;
        self.0 ^= self.0 << 17;
        self.0
    }

    /// A number under `end`, which is not zero.
    pub fn below(&mut self, end: u32) -> u32 {
        ((self.turn() >> 16) % u64::from(end)) as u32
    }

    pub fn bytes(&mut self, length: u32) -> Vec<u8> {
        (0..length).map(|_| self.below(256) as u8).collect()
    }

    /// The same in less time: a turn gives eight of them.
    pub fn many(&mut self, length: u32) -> Vec<u8> {
        let turns = 0..length.div_ceil(8);
        let mut bytes: Vec<u8> = turns.flat_map(|_| self.turn().to_le_bytes()).collect();
        bytes.truncate(length as usize);
        bytes
    }
}
