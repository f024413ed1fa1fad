//! Relays before a camera: the supply of a coil is switched, some time later the armature moves, strikes its stop and springs back a little.
use super::{pixel, trigger, Numbers, Picture};
use crate::second::rows::{time_of, Row};
use std::ops::Range;

const PICTURE: Picture = (640, 480);

/// The lines that the armature covers. It is a bright bar that stands upright before a dark ground, and closes to the right.
pub const LINES: Range<u32> = 210..258;
/// Its first column while the relay is open.
const OPEN: u32 = 300;
const WIDTH: u32 = 40;
/// How many steps it makes from stop to stop, and how many columns each of them has.
const STEPS: u64 = 8;
const STEP: u32 = 3;

/// The trigger input on the coil's supply.
const CHANNEL: u32 = 0;

/// The coil is switched and the armature follows. Times are in microseconds.
#[derive(Clone, Copy)]
pub struct Movement {
    pub switched: u64,
    /// Whether it is switched on, so that the relay closes.
    pub on: bool,
    /// From then until the armature begins to move.
    pub delay: u64,
    /// From then until it strikes its stop.
    pub flight: u64,
    /// Each time that it springs back: by how many steps, and how long it takes until it is at the stop again.
    pub bounces: &'static [(u64, u64)],
}

/// The armature passes from one place to the next.
struct Step {
    time: u64,
    /// How many steps lie between here and the stop.
    ahead: u64,
    /// Whether it moves towards the stop.
    forward: bool,
}

impl Movement {
    fn steps(&self) -> Vec<Step> {
        let start = self.switched + self.delay;
        // the force is even, so that the way grows with the square of the time
        let passed = |i: u64| start + (self.flight.pow(2) * i / (STEPS - 1)).isqrt();
        let mut steps: Vec<Step> = (0..STEPS).map(|i| Step { time: passed(i), ahead: STEPS - 1 - i, forward: true }).collect();
        let mut time = start + self.flight;
        for &(far, lasts) in self.bounces {
            let out = (0..far).map(|i| (i, false));
            let back = (0..far).rev().map(|i| (i, true));
            steps.extend(out.chain(back).zip(1..).map(|((ahead, forward), i)| Step { time: time + lasts * i / (2 * far), ahead, forward }));
            time += lasts;
        }
        steps
    }

    /// Adds the pixels of both edges of the bar: the one in front becomes brighter, the one behind darker. A line is read out at once, and a
    /// pixel in eight misses the change.
    fn add_pixels(&self, step: &Step, rows: &mut Vec<Row>, numbers: &mut Numbers) {
        let place = if self.on { STEPS - 1 - step.ahead } else { step.ahead };
        let left = OPEN + STEP * place as u32;
        let to_the_right = u32::from(self.on == step.forward);
        for y in LINES {
            let time = step.time + u64::from(numbers.below(60));
            for (first, polarity) in [(left, 1 - to_the_right), (left + WIDTH, to_the_right)] {
                rows.extend((first..first + STEP).filter(|_| !numbers.once_in(8)).map(|x| pixel(time, x, y, polarity)));
            }
        }
    }
}

/// The rows of a recording from one time to another: edges of the coil's supply, the armature, and pixels anywhere that nothing has moved.
pub fn rows(movements: &[Movement], (start, end): (u64, u64), numbers: &mut Numbers) -> Vec<Row> {
    let mut rows = noise(start, end, numbers);
    for movement in movements {
        rows.push(trigger(movement.switched, CHANNEL, movement.on.into()));
        movement.steps().iter().for_each(|step| movement.add_pixels(step, &mut rows, numbers));
    }
    rows.sort_by_key(time_of);
    rows
}

/// Single pixels that changed by themselves, about one in half a millisecond.
fn noise(start: u64, end: u64, numbers: &mut Numbers) -> Vec<Row> {
    let (mut rows, mut time) = (vec![], start);
    while time < end {
        rows.push(pixel(time, numbers.below(PICTURE.0), numbers.below(PICTURE.1), numbers.below(2)));
        time += 1 + u64::from(numbers.below(1_000));
    }
    rows
}
