//! Where numbers and delays stand in a panel, and which of them its axes name.

/// How many sequence numbers there are.
const CYCLE: i64 = 65_536;
/// The largest step between named numbers that is smaller than a cycle.
const MOST_STEP_IN_A_CYCLE: i64 = 20_000;
const MOST_NUMBER_STEPS: i64 = 10;
const MOST_DELAY_STEPS: i64 = 4;

/// The smallest of 1, 2, 5, 10, 20, 50 and so on of which at most `most` are needed for `span`.
fn step(span: i64, most: i64) -> i64 {
    let mut decade = 1;
    loop {
        for step in [decade, 2 * decade, 5 * decade] {
            if step * most >= span {
                return step;
            }
        }
        decade *= 10;
    }
}

/// A level axis on which each number from the first to the last has a slot of the same width.
#[derive(Clone, Copy, Debug)]
pub struct Numbers {
    first: i64,
    last: i64,
    slot: f64,
}

impl Numbers {
    pub fn new(first: i64, last: i64, width: f64) -> Numbers {
        Numbers { first, last, slot: width / (last - first + 1) as f64 }
    }

    /// The width of a slot.
    pub fn slot(self) -> f64 {
        self.slot
    }

    /// The middle of a number's slot.
    pub fn x(self, number: i64) -> f64 {
        ((number - self.first) as f64 + 0.5) * self.slot
    }

    /// The numbers to name: round ones, counted from 0 again after 65535.
    pub fn ticks(self) -> impl Iterator<Item = i64> {
        let step = number_step(self.last - self.first);
        (self.first..=self.last).filter(move |&number| is_tick(number, step))
    }
}

fn number_step(span: i64) -> i64 {
    match step(span, MOST_NUMBER_STEPS) {
        step if step <= MOST_STEP_IN_A_CYCLE => step,
        _ => CYCLE * step(span / CYCLE + 1, MOST_NUMBER_STEPS),
    }
}

/// A tick right before the wrap is left out, to keep its name off that of 0.
fn is_tick(number: i64, step: i64) -> bool {
    if step >= CYCLE {
        return number.rem_euclid(step) == 0;
    }
    let sequence_number = number.rem_euclid(CYCLE);
    sequence_number % step == 0 && 2 * (CYCLE - sequence_number) >= step
}

/// An upright axis of delays in ms, from 0 at `bottom` upwards.
#[derive(Clone, Copy, Debug)]
pub struct Delays {
    step: i64,
    /// The delay at the top, a multiple of the step.
    most: i64,
    bottom: f64,
    height: f64,
}

impl Delays {
    /// An axis with room for delays up to `longest`.
    pub fn new(longest: f64, bottom: f64, height: f64) -> Delays {
        let longest = (longest.ceil() as i64).max(1);
        let step = step(longest, MOST_DELAY_STEPS);
        Delays { step, most: (longest + step - 1) / step * step, bottom, height }
    }

    pub fn y(self, delay: f64) -> f64 {
        self.bottom - self.height * delay / self.most as f64
    }

    /// The delays to name.
    pub fn ticks(self) -> impl Iterator<Item = i64> {
        (0..=self.most).step_by(self.step as usize)
    }
}

#[cfg(test)]
mod tests {
    use super::*;

    fn number_ticks(first: i64, last: i64) -> Vec<i64> {
        Numbers::new(first, last, 800.0).ticks().map(|number| number.rem_euclid(CYCLE)).collect()
    }

    fn delay_ticks(longest: f64) -> Vec<i64> {
        Delays::new(longest, 100.0, 100.0).ticks().collect()
    }

    #[test]
    fn a_step_is_the_smallest_that_is_enough() {
        let steps = [(0, 1), (10, 1), (11, 2), (20, 2), (21, 5), (50, 5), (51, 10), (101, 20)];
        for (span, expected) in steps {
            assert_eq!(step(span, 10), expected, "{span}");
        }
    }

    #[test]
    fn numbers_stand_in_the_middle_of_their_slots() {
        let numbers = Numbers::new(65_534, 65_537, 800.0);
        assert_eq!(numbers.slot(), 200.0);
        assert_eq!(
            [65_534, 65_535, 65_536, 65_537].map(|n| numbers.x(n)),
            [100.0, 300.0, 500.0, 700.0]
        );
        assert_eq!(Numbers::new(-3, -3, 800.0).x(-3), 400.0);
    }

    #[test]
    fn round_numbers_are_named() {
        assert_eq!(number_ticks(900, 904), [900, 901, 902, 903, 904]);
        assert_eq!(number_ticks(7, 7), [7]);
        assert_eq!(number_ticks(101, 145), [105, 110, 115, 120, 125, 130, 135, 140, 145]);
    }

    #[test]
    fn numbers_count_from_0_after_the_wrap() {
        let ticks = number_ticks(65_512, 65_555);
        assert_eq!(ticks, [65_515, 65_520, 65_525, 65_530, 0, 5, 10, 15]);
        assert_eq!(number_ticks(-2, 1), [65_534, 65_535, 0, 1]);
        // 65,500 is too close to 0.
        assert_eq!(
            number_ticks(65_250, 66_250),
            [65_300, 65_400, 0, 100, 200, 300, 400, 500, 600, 700]
        );
    }

    #[test]
    fn many_cycles_are_named_at_their_starts() {
        let ticks: Vec<i64> = Numbers::new(1, 30 * CYCLE, 800.0).ticks().collect();
        assert_eq!(ticks, [5, 10, 15, 20, 25, 30].map(|cycle| cycle * CYCLE));
        let ticks = number_ticks(0, 4 * CYCLE);
        assert_eq!(ticks, [0; 5]);
    }

    #[test]
    fn delays_have_room_up_to_a_round_one() {
        assert_eq!(delay_ticks(177.7), [0, 50, 100, 150, 200]);
        assert_eq!(delay_ticks(200.0), [0, 50, 100, 150, 200]);
        assert_eq!(delay_ticks(200.1), [0, 100, 200, 300]);
        assert_eq!(delay_ticks(7_997.1), [0, 2_000, 4_000, 6_000, 8_000]);
        assert_eq!(delay_ticks(0.0), [0, 1]);
    }

    #[test]
    fn delays_go_upwards_from_the_bottom() {
        let delays = Delays::new(177.7, 150.0, 100.0);
        assert_eq!([0.0, 50.0, 200.0].map(|delay| delays.y(delay)), [150.0, 125.0, 50.0]);
    }
}
