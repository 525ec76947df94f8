// Document 02, Paper 10, "A turned dodecahedron": loading a table file, under the paper's words.

pub type Table = [f64; 84];

// "The file is 677 bytes."
pub const SIZE: usize = 677;

pub fn load(bytes: &[u8]) -> Result<Table, u8> {
    // "Refusal 20: wrong length, mark or version."
    if bytes.len() != SIZE {
        return Err(20);
    }
    // "\"EAT\", 16-bit version 1 .. all big-endian"
    if &bytes[..3] != b"EAT" || u16::from_be_bytes([bytes[3], bytes[4]]) != 1 {
        return Err(20);
    }
    // "twelve rows of seven doubles"
    let mut table = [0.0; 84];
    for (number, eight) in table.iter_mut().zip(bytes[5..].chunks_exact(8)) {
        *number = f64::from_be_bytes(eight.try_into().expect("eight bytes"));
    }
    // "Refusal 21: a number not finite or outside its range. .. rows from first to last for each."
    for row in table.chunks_exact(7) {
        // "A row is axis theta, axis phi, four quaternion numbers and angle. .. Theta, phi and angle lie in ±8, quaternion
        // numbers in ±1. All 84 numbers are finite."
        for (number, limit) in row.iter().zip([8.0, 8.0, 1.0, 1.0, 1.0, 1.0, 8.0]) {
            if !number.is_finite() || *number < -limit || *number > limit {
                return Err(21);
            }
        }
    }
    // "Refusal 22: a quaternion off unit length."
    for row in table.chunks_exact(7) {
        // "Each row's quaternion squares, summed left to right, must differ from 1 by at most 1e-12."
        let mut sum = 0.0;
        for number in &row[2..6] {
            sum += number * number;
        }
        if (sum - 1.0).abs() > 1e-12 {
            return Err(22);
        }
    }
    Ok(table)
}

// The file of any 84 numbers.
pub fn file(table: &Table) -> Vec<u8> {
    let mut bytes = b"EAT\x00\x01".to_vec();
    for number in table {
        bytes.extend(number.to_be_bytes());
    }
    bytes
}
