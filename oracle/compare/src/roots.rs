// The square root and its companion, which take one number and no set: the library against the oracle's, over whole numbers.

use crate::common::fields::whole;
use crate::common::generator::Generator;
use crate::counts::{Asked, Counts, Where, SQRT, SQRT_ROUNDS};
use crate::library::{one_nan, Library};
use crate::outcome::Outcome;
use crate::root_inputs::{all, any};
use crate::rounds::sqrt_rounds;
use crate::steps::sqrt;

pub struct Roots {
    library: Library,
    pub counts: Counts,
    // its own, so that the inputs of the other calls do not hang on it
    g: Generator,
}

impl Roots {
    pub fn new(seed: u64, library: Library) -> Roots {
        Roots {
            library,
            counts: Counts::default(),
            g: Generator::new(seed.rotate_left(32)),
        }
    }

    fn compare(&mut self, x: f64) {
        let ours = [self.library.sqrt(x), self.library.sqrt_rounds(x)];
        let rust = [one_nan(sqrt(x)), whole(sqrt_rounds(x) as usize)];
        for (k, call) in [SQRT, SQRT_ROUNDS].into_iter().enumerate() {
            let asked = Asked {
                call,
                place: Where::Alone,
                arguments: &[x],
                lent: None,
            };
            let rust = Outcome {
                status: 0,
                numbers: vec![rust[k]],
            };
            self.counts.compare(asked, &ours[k], &rust);
        }
    }

    // Numbers as the oracle's list has them.
    pub fn listed(&mut self) {
        for x in all(&mut self.g) {
            self.compare(x);
        }
    }

    pub fn any(&mut self) {
        let x = any(&mut self.g);
        self.compare(x);
    }
}
