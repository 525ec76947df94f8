// Wishes, and how many of them and of the places for grants are lent.

use crate::generator::Generator;
use crate::turns::CHANNELS;

pub const MOST: u16 = 65535;

// Lists of sixteen wishes.
pub type Wishes = [u16; CHANNELS];

// One number for the channels that a test names, and another for the others.
fn split(named: impl Fn(usize) -> bool, wish: u16, others: u16) -> Wishes {
    std::array::from_fn(|c| if named(c) { wish } else { others })
}

// The same wish for all: none, below, at and above the first share, and the most.
fn alike() -> Vec<Wishes> {
    [0, 1, 15, 16, 17, 32, 256, MOST]
        .map(|wish| [wish; CHANNELS])
        .to_vec()
}

// One channel wishes for all that it can get, and the others for nothing, below, at and above the first share.
fn one_greedy() -> Vec<Wishes> {
    let channels = 0..CHANNELS;
    let at = |c| [0, 15, 16, 17].map(|others| split(|k| k == c, MOST, others));
    channels.flat_map(at).collect()
}

// The first or the last few wish for all that they can get: the last round then ends between them, or after an exact number
// of rounds.
fn some_greedy() -> Vec<Wishes> {
    let mut list = Vec::new();
    for count in 1..CHANNELS {
        for others in [0, 3, 15, 16] {
            list.push(split(|k| k < count, MOST, others));
            list.push(split(|k| k >= CHANNELS - count, MOST, others));
            list.push(split(|k| k % 2 == 0 && k < count, MOST, others));
        }
    }
    list
}

// So many calls wished for in all: first by one channel alone, then by two, up to all sixteen, the rest by the last.
fn of_total(total: u16) -> Vec<Wishes> {
    let mut list = Vec::new();
    for count in 1..=CHANNELS {
        let each = total / count as u16;
        let mut wishes = split(|k| k < count, each, 0);
        wishes[count - 1] += total - each * count as u16;
        list.push(wishes);
        wishes.reverse();
        list.push(wishes);
    }
    list
}

// Wishes that end one after another, round by round, with what remains handed out exactly, and one more or less.
fn stairs() -> Vec<Wishes> {
    let mut list = Vec::new();
    for step in 1..=4 {
        for first in [0, 10, 14, 15, 16] {
            let up: Wishes = std::array::from_fn(|c| first + step * c as u16);
            let mut down = up;
            down.reverse();
            list.extend([up, down]);
        }
    }
    list
}

// Any wishes: small ones, about the first share, about what one channel can get, and any at all.
pub fn any(g: &mut Generator) -> Wishes {
    let most = [2, 17, 18, 20, 33, 40, 64, 257, 300, 65536][g.whole(0, 10) as usize];
    let idle = g.whole(0, 4);
    let mut wish = || match g.whole(0, 4) < idle {
        true => 0,
        false => g.whole(0, most) as u16,
    };
    std::array::from_fn(|_| wish())
}

pub fn wishes(g: &mut Generator) -> Vec<Wishes> {
    let mut list = [alike(), one_greedy(), some_greedy(), stairs()].concat();
    for total in [16, 17, 240, 255, 256, 257, 272, 512] {
        list.extend(of_total(total));
    }
    list.extend((0..400).map(|_| any(g)));
    list
}
