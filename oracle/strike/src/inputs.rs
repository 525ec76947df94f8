// The inputs of the sessions.

use crate::calls;
use crate::generator::Generator;
use a5::projections::dodecahedron::DodecahedronProjection;

// "EAD", 16-bit version 1.
pub const HEADER: &[u8; 5] = b"EAD\0\x01";

// The session of document 01.
pub const SESSION: &[u8] = &[
    0x45, 0x41, 0x44, 0x00, 0x01, 0x01, 0x00, 0xc8, 0x91, 0x53, 0x80, 0x35, 0xa4, 0xe9, 0x00, 0x02,
    0, 0, 0, 0, 0, 0, 0, 0, 0, 0x02, 0x0c, 0, 0, 0, 0, 0, 0, 0, 0,
];

pub fn record(kind: u8, origin: u8, numbers: [i32; 2]) -> Vec<u8> {
    let mut bytes = vec![kind, origin];
    for n in numbers {
        bytes.extend(n.to_be_bytes());
    }
    bytes
}

fn with_header(records: &[Vec<u8>]) -> Vec<u8> {
    [HEADER.to_vec(), records.concat()].concat()
}

// Every prefix of document 01's session: of the header, and cut off at every byte of each record.
fn prefixes() -> Vec<Vec<u8>> {
    (0..=SESSION.len()).map(|n| SESSION[..n].to_vec()).collect()
}

// One byte of the header is another: the mark, then the version. Whole records follow.
fn wrong_headers() -> Vec<Vec<u8>> {
    let wrong = |(at, byte): (usize, u8)| {
        let mut bytes = SESSION.to_vec();
        bytes[at] = byte;
        bytes
    };
    [
        (0, b'e'),
        (0, 0),
        (1, b'a'),
        (2, b'C'),
        (3, 1),
        (3, 255),
        (4, 0),
        (4, 2),
    ]
    .map(wrong)
    .to_vec()
}

// A record of a kind and an origin, cut off at each byte.
fn cut_off() -> Vec<Vec<u8>> {
    let kinds = [(0, 0), (1, 0), (1, 1), (2, 0), (2, 12), (3, 12), (255, 255)];
    let cut = |(kind, origin), n| [HEADER, &record(kind, origin, [-1, 258])[..n]].concat();
    kinds
        .iter()
        .flat_map(|&k| (1..10).map(move |n| cut(k, n)))
        .collect()
}

// Kinds and origins that are refused, and those beside them; each alone and in front of a record that is answered.
fn refused() -> Vec<Vec<u8>> {
    let heads = [
        (0, 0),
        (3, 0),
        (3, 12),
        (255, 255),
        (1, 1),
        (1, 11),
        (1, 12),
        (1, 255),
        (2, 11),
        (2, 12),
        (2, 255),
    ];
    let next = record(1, 0, [123456789, -234567890]);
    let alone = |(kind, origin)| record(kind, origin, [0, 0]);
    heads
        .iter()
        .flat_map(|&h| {
            [
                with_header(&[alone(h)]),
                with_header(&[alone(h), next.clone()]),
            ]
        })
        .collect()
}

// The limits: latitude about ±90, the largest and least numbers, and one byte of a number at a time.
fn limits() -> Vec<Vec<u8>> {
    let ends = [i32::MIN, i32::MIN + 1, -1, 0, 1, i32::MAX - 1, i32::MAX];
    let latitudes = [-900000001, -900000000, 899999999, 900000000, 900000001];
    let mut records = Vec::new();
    for a in ends {
        records.extend(latitudes.map(|b| record(1, 0, [a, b])));
        for b in ends {
            records.push(record(1, 0, [a, b]));
            records.push(record(2, 5, [a, b]));
        }
    }
    for shift in 0..32 {
        records.push(record(1, 0, [1 << shift, 0]));
        records.push(record(2, 0, [0, 1 << shift]));
    }
    records.chunks(40).map(with_header).collect()
}

// Unplaces that give 19, with their origins: points too far off the face, near the line through the reflected centre parallel to
// the edge.
pub const OUTSIDE: [(u8, [i32; 2]); 3] = [
    (7, [1235847662, -125812592]),
    (4, [1235734985, 265693756]),
    (3, [-1134423674, 541134446]),
];

// Such a point moved towards 0 in its first number as far as it gives 19, and one unit farther, where it is answered.
fn border((origin, [x, y]): (u8, [i32; 2])) -> [Vec<u8>; 2] {
    let mut set = DodecahedronProjection::new().expect("the frame has 62 rows");
    let mut is_answered = |x: i32| {
        let p = [x, y].map(|n| f64::from(n) / 1000000000.0);
        calls::unplace(&mut set, p, origin).is_ok()
    };
    let (mut beyond, mut within) = (x, x - x.signum() * 10_000_000);
    assert!(!is_answered(beyond) && is_answered(within));
    while (beyond - within).abs() > 1 {
        let middle = within + (beyond - within) / 2;
        if is_answered(middle) {
            within = middle;
        } else {
            beyond = middle;
        }
    }
    [beyond, within].map(|x| record(2, origin, [x, y]))
}

fn outside() -> Vec<Vec<u8>> {
    let records = |at: &(u8, [i32; 2])| {
        let [beyond, within] = border(*at);
        [record(2, at.0, at.1), beyond, within]
    };
    OUTSIDE.iter().flat_map(records).collect()
}

// Each alone, and all.
fn far_off() -> Vec<Vec<u8>> {
    let mut list: Vec<Vec<u8>> = outside().into_iter().map(|r| with_header(&[r])).collect();
    list.push(with_header(&outside()));
    list
}

pub fn sessions() -> Vec<Vec<u8>> {
    [
        prefixes(),
        wrong_headers(),
        cut_off(),
        refused(),
        limits(),
        far_off(),
    ]
    .concat()
}

fn place(g: &mut Generator) -> Vec<u8> {
    let longitude = g.whole(-1_800_000_000, 1_800_000_000) as i32;
    record(1, 0, [longitude, g.whole(-900_000_000, 900_000_001) as i32])
}

// A point of a face, or anywhere that 32 bits reach.
fn unplace(g: &mut Generator, origin: u8) -> Vec<u8> {
    let most = if g.whole(0, 4) == 0 {
        i64::from(i32::MAX)
    } else {
        700_000_000
    };
    let numbers = [g.whole(-most, most), g.whole(-most, most)];
    record(2, origin, numbers.map(|n| n as i32))
}

fn any(g: &mut Generator) -> Vec<u8> {
    let kind = [0, 1, 1, 2, 2, 3, 255][g.whole(0, 7) as usize];
    let origin = g.whole(0, 14) as u8;
    record(kind, origin, [g.bits() as i32, g.bits() as i32])
}

// Records for all origins behind document 01's session, to and fro; points too far off the face; and at the end one that is cut
// off.
pub fn long() -> Vec<u8> {
    let mut g = Generator::new(7);
    let mut bytes = SESSION.to_vec();
    for i in 0..3000 {
        bytes.extend(place(&mut g));
        bytes.extend(unplace(&mut g, (i % 12) as u8));
        if i % 10 == 0 {
            bytes.extend(any(&mut g));
        }
    }
    bytes.extend(outside().concat());
    bytes.extend(&record(3, 12, [0, 0])[..9]);
    bytes
}

// For timing: places and unplaces of face points in turn.
pub fn many(count: u64) -> impl Iterator<Item = Vec<u8>> {
    let mut g = Generator::new(8);
    (0..count).map(move |i| match i % 2 {
        0 => place(&mut g),
        _ => unplace(&mut g, (i / 2 % 12) as u8),
    })
}
