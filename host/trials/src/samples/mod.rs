//! Inputs made up for tests, the benchmark and the folder `samples/`; the same ones in every run.

pub mod aedat;
pub mod dat;
pub mod evt2;
pub mod evt3;
pub mod header;
pub mod recordings;
pub mod relays;

/// Width and height in pixels.
pub type Picture = (u32, u32);

/// The last time that a row can have.
pub const LAST_TIME: u64 = (1 << 34) - 1;

/// A row of any kind and data.
pub const fn row(kind: u32, time: u64, [a, b, c, d, e, f, g]: [u32; 7]) -> [u32; 10] {
    [kind, time as u32, (time >> 32) as u32, a, b, c, d, e, f, g]
}

/// The row of a pixel of camera 0.
pub const fn pixel(time: u64, x: u32, y: u32, polarity: u32) -> [u32; 10] {
    row(1, time, [x, y, polarity, 0, 0, 0, 0])
}

/// The row of a pixel of camera 1, a slave.
pub const fn slave_pixel(time: u64, x: u32, y: u32, polarity: u32) -> [u32; 10] {
    row(1, time, [x, y, polarity, 1, 0, 0, 0])
}

/// The row of a trigger.
pub const fn trigger(time: u64, channel: u32, edge: u32) -> [u32; 10] {
    row(2, time, [channel, edge, 0, 0, 0, 0, 0])
}

/// The row of the six counts of an IMU.
pub const fn imu(time: u64, [a, b, c, d, e, f]: [u32; 6]) -> [u32; 10] {
    row(3, time, [a, b, c, d, e, f, 0])
}

/// Numbers that look random and repeat from run to run.
pub struct Numbers(u64);

impl Numbers {
    /// The numbers that follow from a seed, which is not 0.
    pub fn new(seed: u64) -> Numbers {
        assert_ne!(seed, 0, "from 0 only zeros follow");
        Numbers(seed)
    }

    /// Any number of 32 bits.
    pub fn any(&mut self) -> u32 {
        self.0 ^= self.0 << 13;
        self.0 ^= self.0 >> 7;
        self.0 ^= self.0 << 17;
        (self.0 >> 16) as u32
    }

    /// A number below a limit.
    pub fn below(&mut self, limit: u32) -> u32 {
        self.any() % limit
    }

    /// True once in so many times.
    pub fn once_in(&mut self, times: u32) -> bool {
        self.below(times) == 0
    }

    /// Microseconds until a camera sees something again: mostly one or two.
    pub fn pause(&mut self) -> u64 {
        let most = if self.once_in(64) { 40 } else { 2 };
        1 + u64::from(self.below(most))
    }

    /// One of the given values.
    pub fn one_of<T: Copy>(&mut self, values: &[T]) -> T {
        values[self.any() as usize % values.len()]
    }

    /// A number near a limit, small, large, or any.
    pub fn near(&mut self, limit: u64) -> u32 {
        match self.any() % 8 {
            0 => limit as u32,
            1 | 2 => limit.wrapping_sub(1) as u32,
            3 => 0,
            4 => u32::MAX,
            5 => self.any(),
            _ => (u64::from(self.any()) % limit) as u32,
        }
    }
}
