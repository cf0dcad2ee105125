//! Sheets from a seed: by the plan, at random, and damaged.

pub mod damage;
pub mod draft;
mod grow;
mod misfit;
mod systematic;

use crate::frames;
use crate::random::Random;
use systematic::Systematic;

/// A sheet's bytes, and where it comes from.
#[derive(Clone)]
pub struct Made {
    pub bytes: Vec<u8>,
    pub origin: String,
}

pub struct Generator {
    seed: u64,
    systematic: Systematic,
    misfits: Vec<draft::Node>,
}

impl Generator {
    pub fn new(seed: u64) -> Generator {
        Generator { seed, systematic: Systematic::new(), misfits: misfit::all() }
    }

    /// How many sheets the plan has.
    pub fn planned(&self) -> usize {
        self.systematic.count()
    }

    /// So many of its sheets have the whole plan among them.
    pub fn whole_plan(&self) -> usize {
        self.planned().div_ceil(2) * 6
    }

    fn at_random(&self, random: &mut Random) -> draft::Draft {
        if random.percent(20) {
            return self.systematic.three_layers(&mut |n| random.below(n));
        }
        grow::sheet(random)
    }

    /// A damaged sheet: the misfits come first.
    fn damaged(&self, random: &mut Random, count: usize) -> Made {
        if let Some(misfit) = self.misfits.get(count) {
            return Made { bytes: systematic::unwritten(misfit.clone()).text(), origin: "damaged misfit".to_string() };
        }
        let way = random.below(damage::WAYS.len());
        let small = random.percent(50);
        let good = if small { self.systematic.sheet(random.below(self.planned())) } else { grow::sheet(random) };
        Made { bytes: damage::damaged(random, way, &good), origin: format!("damaged {}", damage::WAYS[way].0) }
    }

    /// Which sheet of the plan the sheet of this number is, if any.
    pub fn plan_number(&self, number: usize) -> Option<usize> {
        let (six, which) = (number / 6, number % 6);
        let planned = (six * 2 + which).checked_sub(2).filter(|planned| (2..4).contains(&which) && *planned < self.planned())?;
        // A prime step, so that the first few come from every part of the plan.
        Some(planned * 1_000_003 % self.planned())
    }

    /// Of each six sheets, two are damaged.
    pub fn is_damaged(number: usize) -> bool {
        number % 6 < 2
    }

    /// The sheet of this number. Of each six, two are damaged, two are the plan's next, as long as there are any, and two grow at random.
    pub fn sheet(&self, number: usize) -> Made {
        let mut random = Random::new(self.seed, number as u64);
        if Generator::is_damaged(number) {
            return self.damaged(&mut random, number / 6 * 2 + number % 6);
        }
        match self.plan_number(number) {
            Some(planned) => Made { bytes: self.systematic.sheet(planned).text(), origin: "planned".to_string() },
            None => Made { bytes: self.at_random(&mut random).text(), origin: "random".to_string() },
        }
    }
}

/// Prints these sheets of a seed as frames.
pub fn print(seed: u64, numbers: std::ops::Range<usize>) -> std::io::Result<()> {
    let generator = Generator::new(seed);
    let mut out = std::io::BufWriter::new(std::io::stdout().lock());
    for number in numbers {
        frames::write(&mut out, &generator.sheet(number).bytes)?;
    }
    Ok(())
}
