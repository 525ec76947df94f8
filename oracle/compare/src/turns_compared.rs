// Fair turns, which take no set: the library against the oracle's turns, with places that hold anything and more of them than
// are lent.

use crate::common::fields::whole;
use crate::common::generator::Generator;
use crate::counts::{Asked, Counts, Where, FAIR_TURNS};
use crate::library::{of_places, Library};
use crate::outcome::Outcome;
use crate::turn_inputs::{any, wishes, Wishes};
use crate::turns::{fair_turns, CHANNELS};

// So many wishes and places there are, lent or not.
const ROOM: usize = CHANNELS + 4;

fn in_room(g: &mut Generator, wishes: Wishes) -> [u16; ROOM] {
    std::array::from_fn(|c| match wishes.get(c) {
        Some(wish) => *wish,
        None => g.bits() as u16,
    })
}

pub struct Turns {
    library: Library,
    pub counts: Counts,
    // its own, so that the inputs of the other calls do not hang on it
    g: Generator,
}

impl Turns {
    pub fn new(seed: u64, library: Library) -> Turns {
        Turns {
            library,
            counts: Counts::default(),
            g: Generator::new(!seed),
        }
    }

    fn compare(&mut self, wishes: Wishes, lent: [usize; 2]) {
        let [n, m] = lent;
        let wishes = in_room(&mut self.g, wishes);
        let mut places = [0; ROOM].map(|_| self.g.bits() as u16);
        let mut wanted = places;
        let ours = self.library.fair_turns(&wishes[..n], &mut places, m);
        let given = fair_turns(&wishes[..n], &mut wanted[..m]);
        let rust = Outcome {
            status: given.err().unwrap_or(0),
            numbers: of_places(&wanted, m),
        };
        let asked = Asked {
            call: FAIR_TURNS,
            place: Where::Alone,
            arguments: &wishes.map(|wish| whole(usize::from(wish))),
            lent: Some([n, m, 0]),
        };
        self.counts.compare(asked, &ours, &rust);
    }

    // The oracle's list, in each turn one wish moved by one at most.
    pub fn listed(&mut self) {
        for mut list in wishes(&mut self.g) {
            let channel = self.g.whole(0, CHANNELS as i64) as usize;
            let by = self.g.whole(-1, 2) as i16;
            list[channel] = list[channel].saturating_add_signed(by);
            self.compare(list, [CHANNELS; 2]);
        }
    }

    // A turn with any wishes; one of eight is lent any lengths.
    pub fn any(&mut self) {
        let list = any(&mut self.g);
        let mut lent = [CHANNELS; 2];
        if self.g.whole(0, 8) == 0 {
            lent = lent.map(|right| match self.g.whole(0, 3) {
                0 => right,
                1 => right + self.g.whole(0, 3) as usize - 1,
                _ => self.g.whole(0, ROOM as i64 + 1) as usize,
            });
        }
        self.compare(list, lent);
    }
}
