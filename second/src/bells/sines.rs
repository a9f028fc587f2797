//! Sines in whole numbers: 4,096 steps a turn with 2^30 at the top, and straight lines between the steps.

/// Pi times 2^30.
const PI: i64 = 3_373_259_426;

/// Steps in a quarter of a turn.
const QUARTER: usize = 1_024;

pub struct Sines {
    steps: Vec<i64>,
}

impl Sines {
    /// A whole turn by its first quarter, with the step that ends it.
    pub fn new() -> Sines {
        let rising: Vec<i64> = (0..=QUARTER).map(|step| power_series(step as i64)).collect();
        let step = |step: usize| {
            let (quarter, within) = (step / QUARTER, step % QUARTER);
            let height = rising[if quarter % 2 == 0 { within } else { QUARTER - within }];
            height * if quarter / 2 == 1 { -1 } else { 1 }
        };
        Sines { steps: (0..=4 * QUARTER).map(step).collect() }
    }

    /// The sine at a phase in 2^-32 turns.
    pub fn at(&self, phase: u32) -> i64 {
        let (step, behind) = ((phase >> 20) as usize, (phase & 0xF_FFFF) as i64);
        let (here, next) = (self.steps[step], self.steps[step + 1]);
        here + ((next - here) * behind >> 20)
    }
}

/// The sine of a step of the first quarter: x - x^3/3! + x^5/5! and so on, until a term is 0.
fn power_series(step: i64) -> i64 {
    let x = PI * step / (2 * QUARTER as i64);
    let square = x * x >> 30;
    let (mut term, mut sum, mut power) = (x, x, 1);
    while term > 0 {
        term = (term * square >> 30) / ((power + 1) * (power + 2));
        power += 2;
        sum += if power % 4 == 1 { term } else { -term };
    }
    sum
}
