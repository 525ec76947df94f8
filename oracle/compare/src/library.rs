// The proved library's C functions, on buffers with numbers behind them that no call may touch.

use crate::calls::{Call, Forward, Inverse, Place};
use crate::common::fields::{of_whole, whole};
use crate::common::sizes::{RIGHT, SPHERE_COORDINATES, SPHERE_STORE, SPHERE_WIDTH};
use crate::common::sphere_slot::with_cross_product;
use crate::counts::{
    FAIR_TURNS, FORWARD, FORWARD_WITH, FROM_LON_LAT, NEAREST, NEAREST_WITH, OPEN, OPEN_WITH, SHOW,
    SLOT_STATE, SQRT, SQRT_ROUNDS, TABLE_LOAD, TABLE_SAVE, TO_LON_LAT,
};
use crate::outcome::{show, Outcome, BEFORE};
use crate::raw;
use crate::set::Set;
use crate::spoil::Spoil;

// How many numbers lie behind each buffer.
pub const BEHIND: usize = 5;
const BEHIND_IS: f64 = 3.25;

// What a byte that is lent for an answer holds before the call. No call answers it.
pub const BYTE_BEFORE: u8 = 0xa5;

pub fn of_byte(byte: u8) -> f64 {
    match byte {
        BYTE_BEFORE => BEFORE,
        n => whole(n as usize),
    }
}

// Places for grants, those that are not lent first.
pub fn of_places(places: &[u16], lent: usize) -> Vec<f64> {
    let (lent, behind) = places.split_at(lent);
    let all = behind.iter().chain(lent);
    all.map(|n| whole(usize::from(*n))).collect()
}

// Bytes, those that are not lent first.
pub fn of_bytes(bytes: &[u8], lent: usize) -> Vec<f64> {
    let (lent, behind) = bytes.split_at(lent);
    let all = behind.iter().chain(lent);
    all.map(|n| whole(usize::from(*n))).collect()
}

// Every NaN is one: its payload means nothing.
pub fn one_nan(x: f64) -> f64 {
    match x.is_nan() {
        true => f64::NAN,
        false => x,
    }
}

// Frame, face store, sphere store.
pub struct Buffers {
    pub numbers: [Vec<f64>; 3],
}

fn parts(set: &Set) -> [&[f64]; 3] {
    [&set.frame, &set.face, &set.sphere]
}

impl Buffers {
    pub fn of(set: &Set) -> Buffers {
        let mut buffers = Buffers {
            numbers: RIGHT.map(|size| vec![BEHIND_IS; size + BEHIND]),
        };
        buffers.take(set);
        buffers
    }

    pub fn take(&mut self, set: &Set) {
        for (numbers, part) in self.numbers.iter_mut().zip(parts(set)) {
            numbers[..part.len()].copy_from_slice(part);
        }
    }

    // The sphere store with b × c formed anew in every filled slot, and what stood in each of those slots.
    fn form_cross_products(&mut self) -> Vec<(usize, Vec<f64>)> {
        let mut before = Vec::new();
        let slots = self.numbers[2][..SPHERE_STORE].chunks_mut(SPHERE_WIDTH);
        for (k, slot) in slots.enumerate().filter(|(_, slot)| slot[0] == 1.0) {
            before.push((k, slot.to_vec()));
            let own = with_cross_product(&slot[1..1 + SPHERE_COORDINATES]);
            slot[1..].copy_from_slice(&own);
        }
        before
    }

    fn put_back(&mut self, before: Vec<(usize, Vec<f64>)>) {
        for (k, slot) in before {
            self.numbers[2][k * SPHERE_WIDTH..(k + 1) * SPHERE_WIDTH].copy_from_slice(&slot);
        }
    }

    // The first place where they differ from a set, bit for bit, or where what lies behind has changed.
    pub fn differing(&self, set: &Set) -> Option<String> {
        for (k, part) in parts(set).into_iter().enumerate() {
            let (own, behind) = self.numbers[k].split_at(part.len());
            let of = |x: &f64, y: f64| x.to_bits() ^ y.to_bits();
            let all = own.iter().zip(part).fold(0, |d, (x, y)| d | of(x, *y));
            if behind.iter().fold(all, |d, x| d | of(x, BEHIND_IS)) == 0 {
                continue;
            }
            let wanted = |i: usize| part.get(i).copied().unwrap_or(BEHIND_IS);
            let at =
                (0..self.numbers[k].len()).find(|i| of(&self.numbers[k][*i], wanted(*i)) != 0)?;
            let name = ["frame", "face store", "sphere store"][k];
            let (ours, rust) = (show(self.numbers[k][at]), show(wanted(at)));
            return Some(format!(
                "  {name}, number {at}\n  library {ours}\n  Rust    {rust}"
            ));
        }
        None
    }
}

pub struct Library {
    pub spoil: Option<Spoil>,
}

// What the functions are owed is pointers to as many numbers as each length says, which the vectors and the locals are: no
// length is above what a buffer has with those behind it.
impl Library {
    pub fn ended(
        &mut self,
        call: usize,
        status: u8,
        numbers: Vec<f64>,
        buffers: Option<&mut Buffers>,
    ) -> Outcome {
        let mut outcome = Outcome { status, numbers };
        if let Some(spoil) = self.spoil {
            if spoil.done(call, &mut outcome, buffers) {
                self.spoil = None;
            }
        }
        outcome
    }

    pub fn open(&mut self, buffers: &mut Buffers, lent: [usize; 3]) -> Outcome {
        let [frame, face, sphere] = &mut buffers.numbers;
        let (frame, face, sphere) = (frame.as_mut_ptr(), face.as_mut_ptr(), sphere.as_mut_ptr());
        let status = unsafe { raw::a5_open(frame, lent[0], face, lent[1], sphere, lent[2]) };
        self.ended(OPEN, status, vec![], Some(buffers))
    }

    // For the self-test also as a library would answer that forms b × c of filled slots.
    pub fn call(
        &mut self,
        buffers: &mut Buffers,
        call: Call,
        lent: [usize; 3],
        x: &[f64],
    ) -> Outcome {
        let number = FORWARD + call as usize;
        if !self.spoil.is_some_and(|spoil| spoil.forms(number)) {
            let (status, numbers) = Library::called(buffers, call, lent, x);
            return self.ended(number, status, numbers, Some(buffers));
        }
        let before = buffers.form_cross_products();
        let (status, numbers) = Library::called(buffers, call, lent, x);
        buffers.put_back(before);
        Outcome { status, numbers }
    }

    fn called(buffers: &mut Buffers, call: Call, lent: [usize; 3], x: &[f64]) -> (u8, Vec<f64>) {
        let [frame, face, sphere] = &mut buffers.numbers;
        let (frame, face, sphere) = (frame.as_ptr(), face.as_mut_ptr(), sphere.as_mut_ptr());
        let ([a, b, c], [p, q]) = (lent, [x[0], x[1]]);
        let mut to = [BEFORE; 2];
        if call == Place {
            let mut id = BYTE_BEFORE;
            let place = raw::a5_place;
            let status = unsafe { place(frame, a, face, b, sphere, c, p, q, &mut id, &mut to) };
            (status, vec![of_byte(id), to[0], to[1]])
        } else {
            let function = match call {
                Forward => raw::a5_forward,
                Inverse => raw::a5_inverse,
                _ => raw::a5_unplace,
            };
            let origin = of_whole(x[2]) as u8;
            let status = unsafe { function(frame, a, face, b, sphere, c, p, q, origin, &mut to) };
            (status, to.to_vec())
        }
    }

    pub fn nearest(&mut self, x: [f64; 2]) -> Outcome {
        let mut id = BYTE_BEFORE;
        let status = unsafe { raw::a5_nearest(x[0], x[1], &mut id) };
        self.ended(NEAREST, status, vec![of_byte(id)], None)
    }

    pub fn open_with(&mut self, buffers: &mut Buffers, table: &[f64], lent: [usize; 3]) -> Outcome {
        let [frame, face, sphere] = &mut buffers.numbers;
        let (frame, face, sphere) = (frame.as_mut_ptr(), face.as_mut_ptr(), sphere.as_mut_ptr());
        let (rows, n, [a, b, c]) = (table.as_ptr(), table.len(), lent);
        let status = unsafe { raw::a5_open_with(rows, n, frame, a, face, b, sphere, c) };
        self.ended(OPEN_WITH, status, vec![], Some(buffers))
    }

    pub fn call_with(
        &mut self,
        buffers: &mut Buffers,
        table: &[f64],
        call: Call,
        lent: [usize; 3],
        x: &[f64],
    ) -> Outcome {
        let [frame, face, sphere] = &mut buffers.numbers;
        let (frame, face, sphere) = (frame.as_ptr(), face.as_mut_ptr(), sphere.as_mut_ptr());
        let ([a, b, c], [p, q]) = (lent, [x[0], x[1]]);
        let (rows, n) = (table.as_ptr(), table.len());
        let mut to = [BEFORE; 2];
        let (status, numbers) = if call == Place {
            let (mut id, place) = (BYTE_BEFORE, raw::a5_place_with);
            let (id_to, two) = (&mut id, &mut to);
            let status = unsafe { place(rows, n, frame, a, face, b, sphere, c, p, q, id_to, two) };
            (status, vec![of_byte(id), to[0], to[1]])
        } else {
            let function = match call {
                Forward => raw::a5_forward_with,
                Inverse => raw::a5_inverse_with,
                _ => raw::a5_unplace_with,
            };
            let (id, two) = (of_whole(x[2]) as u8, &mut to);
            let status = unsafe { function(rows, n, frame, a, face, b, sphere, c, p, q, id, two) };
            (status, to.to_vec())
        };
        self.ended(FORWARD_WITH + call as usize, status, numbers, Some(buffers))
    }

    pub fn nearest_with(&mut self, table: &[f64], x: [f64; 2]) -> Outcome {
        let mut id = BYTE_BEFORE;
        let (rows, n) = (table.as_ptr(), table.len());
        let status = unsafe { raw::a5_nearest_with(rows, n, x[0], x[1], &mut id) };
        self.ended(NEAREST_WITH, status, vec![of_byte(id)], None)
    }

    pub fn table_load(&mut self, file: &[u8]) -> Outcome {
        let mut table = [BEFORE; 84];
        let status = unsafe { raw::a5_table_load(file.as_ptr(), file.len(), &mut table) };
        self.ended(TABLE_LOAD, status, table.to_vec(), None)
    }

    // All bytes, those that are not lent first, as whole numbers.
    pub fn table_save(&mut self, table: &[f64], bytes: &mut [u8], lent: usize) -> Outcome {
        let (rows, n, to) = (table.as_ptr(), table.len(), bytes.as_mut_ptr());
        let status = unsafe { raw::a5_table_save(rows, n, to, lent) };
        self.ended(TABLE_SAVE, status, of_bytes(bytes, lent), None)
    }

    pub fn from_lon_lat(&mut self, x: [f64; 2]) -> Outcome {
        let mut to = [BEFORE; 2];
        let status = unsafe { raw::a5_from_lon_lat(x[0], x[1], &mut to) };
        self.ended(FROM_LON_LAT, status, to.to_vec(), None)
    }

    pub fn to_lon_lat(&mut self, x: [f64; 2]) -> Outcome {
        let mut to = [BEFORE; 2];
        let status = unsafe { raw::a5_to_lon_lat(x[0], x[1], &mut to) };
        self.ended(TO_LON_LAT, status, to.to_vec(), None)
    }

    // The offset and the length of a part, as whole numbers.
    pub fn show(
        &mut self,
        buffers: &mut Buffers,
        kind: u8,
        slot: usize,
        lent: [usize; 3],
    ) -> Outcome {
        let [_, face, sphere] = &buffers.numbers;
        let (face, sphere) = (face.as_ptr(), sphere.as_ptr());
        let mut part = [of_whole(BEFORE); 2];
        let status = unsafe { raw::a5_show(face, lent[1], sphere, lent[2], kind, slot, &mut part) };
        self.ended(SHOW, status, part.map(whole).to_vec(), Some(buffers))
    }

    // 1 is filled, 0 is empty.
    pub fn slot_state(
        &mut self,
        buffers: &mut Buffers,
        kind: u8,
        slot: usize,
        lent: [usize; 3],
    ) -> Outcome {
        let [_, face, sphere] = &buffers.numbers;
        let (face, sphere) = (face.as_ptr(), sphere.as_ptr());
        let mut filled = BYTE_BEFORE;
        let status =
            unsafe { raw::a5_slot_state(face, lent[1], sphere, lent[2], kind, slot, &mut filled) };
        self.ended(SLOT_STATE, status, vec![of_byte(filled)], Some(buffers))
    }

    // All places, those that are not lent first, as whole numbers.
    pub fn fair_turns(&mut self, wishes: &[u16], places: &mut [u16], lent: usize) -> Outcome {
        let (n, m) = (wishes.len(), lent.min(places.len()));
        let status = unsafe { raw::a5_fair_turns(wishes.as_ptr(), n, places.as_mut_ptr(), m) };
        self.ended(FAIR_TURNS, status, of_places(places, m), None)
    }

    pub fn sqrt(&mut self, x: f64) -> Outcome {
        let root = unsafe { raw::a5_sqrt(x) };
        self.ended(SQRT, 0, vec![one_nan(root)], None)
    }

    pub fn sqrt_rounds(&mut self, x: f64) -> Outcome {
        let rounds = unsafe { raw::a5_sqrt_rounds(x) };
        self.ended(SQRT_ROUNDS, 0, vec![whole(rounds as usize)], None)
    }
}
