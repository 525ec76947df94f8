// A table of twelve origins, for a dodecahedron that is turned.

use crate::calls;
use crate::{Refusal, Spherical};

/// How many numbers a table has: twelve rows of seven.
pub const TABLE: usize = 84;
/// How many bytes a table file has.
pub const TABLE_FILE: usize = 677;

/// Twelve origins: a row of axis theta, axis phi, quaternion x, y, z, w and angle for each, in the order of their numbers. A
/// value of this type has passed refusals 21 and 22; whether a set can be opened with it (7) and has every vertex (8) is told
/// by the calls.
#[derive(Clone, Debug, PartialEq)]
pub struct Table {
    numbers: Box<[f64; TABLE]>,
}

// The library's own rows: the test `tables` finds that a set opened with them is the one that is opened without a table.
const BUILT_IN: [f64; 84] = [
    0.0,
    0.0,
    0.0,
    0.0,
    0.0,
    1.0,
    0.0,
    0.0,
    1.1071487177940904,
    0.0,
    0.5257311121191336,
    0.0,
    0.8506508083520399,
    0.6283185307179586,
    0.6283185307179586,
    2.0344439357957027,
    -0.5,
    0.6881909602355868,
    0.0,
    0.5257311121191336,
    0.6283185307179586,
    1.8849555921538759,
    2.0344439357957027,
    -0.8090169943749475,
    -0.2628655560595668,
    0.0,
    0.5257311121191336,
    0.6283185307179586,
    1.2566370614359172,
    1.1071487177940904,
    -0.5,
    0.16245984811645314,
    0.0,
    0.8506508083520399,
    0.6283185307179586,
    2.5132741228718345,
    1.1071487177940904,
    -0.30901699437494745,
    -0.42532540417602,
    0.0,
    0.8506508083520399,
    0.6283185307179586,
    3.7699111843077517,
    1.1071487177940904,
    0.30901699437494745,
    -0.42532540417602,
    0.0,
    0.8506508083520399,
    0.6283185307179586,
    4.39822971502571,
    2.0344439357957027,
    0.8090169943749475,
    -0.2628655560595668,
    0.0,
    0.5257311121191336,
    0.6283185307179586,
    3.141592653589793,
    2.0344439357957027,
    0.0,
    -0.8506508083520399,
    0.0,
    0.5257311121191336,
    0.6283185307179586,
    0.0,
    3.141592653589793,
    0.0,
    -1.0,
    0.0,
    0.0,
    0.0,
    5.654866776461628,
    2.0344439357957027,
    0.5,
    0.6881909602355868,
    0.0,
    0.5257311121191336,
    0.6283185307179586,
    5.026548245743669,
    1.1071487177940904,
    0.5,
    0.16245984811645314,
    0.0,
    0.8506508083520399,
    0.6283185307179586,
];

impl Table {
    /// The table of the calls that take none.
    pub fn built_in() -> Table {
        Table {
            numbers: Box::new(BUILT_IN),
        }
    }

    /// The table of 84 numbers, or refusal 20, 21 or 22.
    pub fn new(numbers: &[f64]) -> Result<Table, Refusal> {
        let mut file = [0; TABLE_FILE];
        calls::table_save(numbers, &mut file)?;
        Table::load(&file)
    }

    /// The table of a table file, or refusal 20, 21 or 22.
    pub fn load(file: &[u8]) -> Result<Table, Refusal> {
        let mut numbers = Box::new([0.0; TABLE]);
        calls::table_load(file, &mut numbers)?;
        Ok(Table { numbers })
    }

    /// The table's file, from which [`load`](Table::load) gives the table back, bit for bit.
    pub fn save(&self) -> [u8; TABLE_FILE] {
        let mut file = [0; TABLE_FILE];
        calls::table_save(&*self.numbers, &mut file).expect("a table that passed");
        file
    }

    /// The 84 numbers.
    #[inline]
    pub fn numbers(&self) -> &[f64; TABLE] {
        &self.numbers
    }

    /// The number of this table's origin nearest to a position.
    #[inline]
    pub fn nearest(&self, position: Spherical) -> Result<u8, Refusal> {
        calls::nearest_with(&*self.numbers, position)
    }
}
