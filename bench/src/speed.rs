// Times every call of the library, the plain Rust beside it where it has the same, and PROJ's equal-area projections where they are
// at hand: a table of each in Markdown, medians in ns a call.

#[allow(dead_code)]
#[path = "../../oracle/common/generator.rs"]
mod generator;
#[cfg(with_proj)]
mod projections;
mod tools;

use a5_faces::{
    calls, CaptionBox, Face, LonLat, Panel, Place, PlaceResult, Set, Spherical, Store, Table,
    Window,
};
use a5_plain::projections::dodecahedron::DodecahedronProjection;
use generator::Generator;
use std::hint::black_box;
use std::time::Instant;

const POINTS: usize = 4096;
const A_RUN: usize = 256;
const LIST: usize = 300;
const OUTLINE: usize = 16;

// The same points in every call's terms: a run takes the next so many.
struct Points {
    degrees: Vec<LonLat>,
    radians: Vec<Spherical>,
    places: Vec<Place>,
    // longitude and latitude in radians
    geodetic: Vec<[f64; 2]>,
    // on one face, as an outline has them
    outline: Vec<LonLat>,
}

impl Points {
    fn new() -> Points {
        let mut generator = Generator::new(1);
        let mut set = Set::new().expect("open");
        let degrees: Vec<LonLat> = (0..POINTS)
            .map(|_| LonLat {
                longitude: generator.between(-180.0, 180.0),
                latitude: generator.between(-1.0, 1.0).asin().to_degrees(),
            })
            .collect();
        let places = degrees
            .iter()
            .map(|p| set.place(*p).expect("place"))
            .collect();
        let radians = degrees
            .iter()
            .map(|p| calls::from_lon_lat(*p).expect("from_lon_lat"))
            .collect();
        let geodetic = degrees
            .iter()
            .map(|p| [p.longitude.to_radians(), p.latitude.to_radians()])
            .collect();
        let outline = (0..OUTLINE as u32)
            .map(|k| LonLat {
                longitude: 10.0 + 0.2 * f64::from(k),
                latitude: 47.0 + f64::from(k % 3),
            })
            .collect();
        Points {
            degrees,
            radians,
            places,
            geodetic,
            outline,
        }
    }
}

// One run of a call from a point's number on, in ns a call.
type Run<'a> = Box<dyn FnMut(usize) -> f64 + 'a>;

struct Row<'a> {
    name: &'static str,
    ours: Run<'a>,
    with: Option<Run<'a>>,
    plain: Option<Run<'a>>,
}

// A run of a call on one item after another.
fn each<'a, P: Copy, A>(items: &'a [P], mut call: impl FnMut(P) -> A + 'a) -> Run<'a> {
    Box::new(move |at| {
        let items = &items[at..at + A_RUN];
        let start = Instant::now();
        for item in black_box(items) {
            black_box(call(*item));
        }
        start.elapsed().as_nanos() as f64 / A_RUN as f64
    })
}

// A run of a call that is so long that few make one, in ns for each of its parts.
fn few<'a, A>(times: usize, parts: usize, mut call: impl FnMut(usize) -> A + 'a) -> Run<'a> {
    Box::new(move |at| {
        let start = Instant::now();
        for k in 0..times {
            black_box(call(at + k));
        }
        start.elapsed().as_nanos() as f64 / (times * parts) as f64
    })
}

fn row<'a>(
    name: &'static str,
    ours: Run<'a>,
    with: Option<Run<'a>>,
    plain: Option<Run<'a>>,
) -> Row<'a> {
    Row {
        name,
        ours,
        with,
        plain,
    }
}

// ---- the library, and the plain Rust with the same work

// A set on which every point was placed.
fn used(table: Option<&Table>, points: &Points) -> Set {
    let set = match table {
        None => Set::new(),
        Some(table) => Set::new_with(table.clone()),
    };
    let mut set = set.expect("open");
    for p in &points.degrees {
        black_box(set.place(*p)).expect("place");
    }
    set
}

struct Plain(DodecahedronProjection);

impl Plain {
    fn new(points: &Points) -> Plain {
        let mut plain = Plain(DodecahedronProjection::new().expect("the Rust has 62 rows"));
        for p in &points.degrees {
            black_box(plain.place(*p));
        }
        plain
    }

    fn position(at: Spherical) -> a5_plain::coordinate_systems::Spherical {
        use a5_plain::coordinate_systems::{Radians, Spherical};
        Spherical::new(
            Radians::new_unchecked(at.theta),
            Radians::new_unchecked(at.phi),
        )
    }

    fn place(&mut self, at: LonLat) -> Place {
        let point = a5_plain::coordinate_systems::LonLat::new(at.longitude, at.latitude);
        let position = a5_plain::core::coordinate_transforms::from_lon_lat(point);
        let origin = a5_plain::core::origin::find_nearest_origin(position).id;
        let face = self.0.forward(position, origin).expect("forward");
        let (x, y) = (face.x(), face.y());
        Place {
            origin,
            face: Face { x, y },
        }
    }

    fn inverse(&mut self, place: Place) -> a5_plain::coordinate_systems::Spherical {
        let face = a5_plain::coordinate_systems::Face::new(place.face.x, place.face.y);
        self.0.inverse(face, place.origin).expect("inverse")
    }

    fn unplace(&mut self, place: Place) -> LonLat {
        let to = a5_plain::core::coordinate_transforms::to_lon_lat(self.inverse(place));
        LonLat {
            longitude: to.longitude(),
            latitude: to.latitude(),
        }
    }

    // An outline on one face: the face, its points and their box.
    fn region(&mut self, outline: &[LonLat]) -> Option<(u8, Vec<Face>, tools::Bounds)> {
        let places: Vec<Place> = outline.iter().map(|p| self.place(*p)).collect();
        let origin = places[0].origin;
        let mut bounds = tools::Bounds::default();
        for place in &places {
            if place.origin != origin {
                return None;
            }
            bounds.take_in(place.face.x, place.face.y).ok()?;
        }
        Some((origin, places.iter().map(|p| p.face).collect(), bounds))
    }

    // A panel's step that places.
    fn step(&mut self, registers: &mut [u8; 32]) {
        let input = |at: usize| {
            f64::from(i32::from_be_bytes(
                registers[at..at + 4].try_into().expect("four"),
            ))
        };
        let (longitude, latitude) = (input(8) / 1e7, input(12) / 1e7);
        let place = self.place(LonLat {
            longitude,
            latitude,
        });
        registers[0] = 0;
        registers[1] = 1;
        registers[3] = u8::from(registers[2] & 1 != 0);
        (registers[4], registers[5]) = (place.origin, 0);
        registers[16..24].copy_from_slice(&place.face.x.to_be_bytes());
        registers[24..32].copy_from_slice(&place.face.y.to_be_bytes());
    }
}

// ---- the rows of the table

fn on_a_set<'a>(points: &'a Points, table: &'a Table) -> Vec<Row<'a>> {
    let set = || used(None, points);
    let with = || used(Some(table), points);
    let plain = || Plain::new(points);
    let (mut opened, mut opened_with) = (set(), with());
    let (mut a, mut b, mut c) = (set(), with(), plain());
    let (mut d, mut e, mut f) = (set(), with(), plain());
    let (mut g, mut h, mut i) = (set(), with(), plain());
    let (mut j, mut k, mut l) = (set(), with(), plain());
    let origins: Vec<(Spherical, u8)> = points
        .radians
        .iter()
        .copied()
        .zip(points.places.iter().map(|p| p.origin))
        .collect();
    let origins: &'a [(Spherical, u8)] = origins.leak();
    vec![
        row(
            "open",
            few(1, 1, move |_| opened.open().expect("open")),
            Some(few(1, 1, move |_| opened_with.open().expect("open"))),
            Some(few(1, 1, |_| {
                a5_plain::projections::crs::CRS::new().is_ok()
            })),
        ),
        row(
            "place",
            each(&points.degrees, move |p| a.place(p)),
            Some(each(&points.degrees, move |p| b.place(p))),
            Some(each(&points.degrees, move |p| c.place(p))),
        ),
        row(
            "unplace",
            each(&points.places, move |p| d.unplace(p)),
            Some(each(&points.places, move |p| e.unplace(p))),
            Some(each(&points.places, move |p| f.unplace(p))),
        ),
        row(
            "forward",
            each(origins, move |(p, id)| g.forward(p, id)),
            Some(each(origins, move |(p, id)| h.forward(p, id))),
            Some(each(origins, move |(p, id)| {
                i.0.forward(Plain::position(p), id).is_ok()
            })),
        ),
        row(
            "inverse",
            each(&points.places, move |p| j.inverse(p)),
            Some(each(&points.places, move |p| k.inverse(p))),
            Some(each(&points.places, move |p| l.inverse(p))),
        ),
        row(
            "nearest",
            each(&points.radians, calls::nearest),
            Some(each(&points.radians, |p| table.nearest(p))),
            Some(each(&points.radians, |p| {
                a5_plain::core::origin::find_nearest_origin(Plain::position(p)).id
            })),
        ),
    ]
}

fn conversions(points: &Points) -> Vec<Row<'_>> {
    use a5_plain::core::coordinate_transforms as plain;
    vec![
        row(
            "from_lon_lat",
            each(&points.degrees, calls::from_lon_lat),
            None,
            Some(each(&points.degrees, |p| {
                plain::from_lon_lat(a5_plain::coordinate_systems::LonLat::new(
                    p.longitude,
                    p.latitude,
                ))
            })),
        ),
        row(
            "to_lon_lat",
            each(&points.radians, calls::to_lon_lat),
            None,
            Some(each(&points.radians, |p| {
                plain::to_lon_lat(Plain::position(p))
            })),
        ),
    ]
}

fn lists<'a>(points: &'a Points, table: &'a Table) -> Vec<Row<'a>> {
    let list = |mut set: Set| {
        let mut results = [PlaceResult::default(); LIST];
        few(1, LIST, move |at| {
            set.place_list_into(&points.degrees[at..at + LIST], &mut results)
        })
    };
    let outline = |mut set: Set| few(8, 1, move |_| set.region(&points.outline).is_ok());
    let step = |mut set: Set| {
        let mut panel = Panel::new();
        panel.bytes_mut()[2] = 3;
        few(64, 1, move |at| {
            let p = points.degrees[at];
            let registers = panel.bytes_mut();
            registers[0] = 1;
            registers[8..12].copy_from_slice(&((p.longitude * 1e7) as i32).to_be_bytes());
            registers[12..16].copy_from_slice(&((p.latitude * 1e7) as i32).to_be_bytes());
            set.step(&mut panel)
        })
    };
    let (mut singly, mut plain, mut stepped) =
        (Plain::new(points), Plain::new(points), Plain::new(points));
    let mut registers = [0; 32];
    vec![
        row(
            "a list of 300, a position",
            list(used(None, points)),
            Some(list(used(Some(table), points))),
            Some(few(1, LIST, move |at| {
                let places: Vec<Place> = points.degrees[at..at + LIST]
                    .iter()
                    .map(|p| singly.place(*p))
                    .collect();
                places
            })),
        ),
        row(
            "a region of 16 positions",
            outline(used(None, points)),
            Some(outline(used(Some(table), points))),
            Some(few(8, 1, move |_| plain.region(&points.outline).is_some())),
        ),
        row(
            "a panel's step that places",
            step(used(None, points)),
            Some(step(used(Some(table), points))),
            Some(few(64, 1, move |at| {
                let p = points.degrees[at];
                registers[8..12].copy_from_slice(&((p.longitude * 1e7) as i32).to_be_bytes());
                registers[12..16].copy_from_slice(&((p.latitude * 1e7) as i32).to_be_bytes());
                stepped.step(black_box(&mut registers))
            })),
        ),
    ]
}

fn shows(points: &Points) -> Vec<Row<'_>> {
    let (set, other) = (used(None, points), used(None, points));
    let plain = used(None, points);
    vec![
        row(
            "show",
            few(A_RUN, 1, move |at| {
                set.show(Store::Sphere, at % 240)
                    .map(|part| part.map(|p| p[0]))
            }),
            None,
            Some(few(A_RUN, 1, move |at| {
                let [_, _, sphere] = plain.buffers();
                let slot = sphere.chunks_exact(13).nth(at % 240)?;
                (slot[0] == 1.0).then_some(slot[1])
            })),
        ),
        row(
            "slot_state",
            few(A_RUN, 1, move |at| {
                other.slot_state(Store::Sphere, at % 240)
            }),
            None,
            None,
        ),
    ]
}

fn beside_a_set(points: &Points) -> Vec<Row<'_>> {
    let (mut caption, mut bounds) = (CaptionBox::new(), tools::Bounds::default());
    let (mut window, mut deque) = (Window::new(), tools::Deque::default());
    // 22 strikes a minute: 3,960 are kept
    let (mut ours, mut theirs) = (0, 0);
    for k in 0..200_000 {
        window.add(k / 22, (k % 12) as u8).expect("add");
        deque.add(k / 22, (k % 12) as u8).expect("add");
    }
    let counts = deque.counts;
    let printed = window.clone();
    vec![
        row(
            "box",
            each(&points.places, move |p| caption.take_in(p.face)),
            None,
            Some(each(&points.places, move |p| {
                bounds.take_in(p.face.x, p.face.y)
            })),
        ),
        row(
            "an addition to a window",
            few(A_RUN, 1, move |_| {
                ours += 1;
                window
                    .add((200_000 + ours) / 22, (ours % 12) as u8)
                    .expect("add")
            }),
            None,
            Some(few(A_RUN, 1, move |_| {
                theirs += 1;
                deque
                    .add((200_000 + theirs) / 22, (theirs % 12) as u8)
                    .expect("add")
            })),
        ),
        row(
            "a sheet",
            few(16, 1, move |_| printed.sheet()),
            None,
            Some(few(16, 1, move |_| tools::sheet(black_box(&counts)))),
        ),
    ]
}

fn turns_and_files<'a>(table: &'a Table) -> Vec<Row<'a>> {
    let crowded = [
        40, 12, 18, 0, 300, 16, 16, 2, 65535, 30, 0, 21, 9, 17, 44, 5,
    ];
    let one = {
        let mut one = [0; 16];
        one[3] = 65535;
        one
    };
    let file: &'a [u8; 677] = Box::leak(Box::new(table.save()));
    vec![
        row(
            "fair turns, sixteen wishes",
            few(64, 1, move |_| a5_faces::fair_turns(black_box(&crowded))),
            None,
            Some(few(64, 1, move |_| tools::fair_turns(black_box(&crowded)))),
        ),
        row(
            "fair turns, one wish",
            few(64, 1, move |_| a5_faces::fair_turns(black_box(&one))),
            None,
            Some(few(64, 1, move |_| tools::fair_turns(black_box(&one)))),
        ),
        row(
            "a table file loaded",
            few(16, 1, move |_| Table::load(black_box(file)).is_ok()),
            None,
            Some(few(16, 1, move |_| tools::load(black_box(file)).is_ok())),
        ),
        row(
            "a table file written",
            few(16, 1, move |_| black_box(table).save()),
            None,
            Some(few(16, 1, move |_| tools::save(black_box(table.numbers())))),
        ),
        row(
            "sqrt",
            few(A_RUN, 1, |at| a5_faces::sqrt(black_box(2.0 + at as f64))),
            None,
            Some(few(A_RUN, 1, |at| black_box(2.0 + at as f64).sqrt())),
        ),
        row(
            "sqrt of a square",
            few(A_RUN, 1, |at| a5_faces::sqrt(black_box((at * at) as f64))),
            None,
            Some(few(A_RUN, 1, |at| black_box((at * at) as f64).sqrt())),
        ),
        row(
            "sqrt_rounds",
            few(A_RUN, 1, |at| {
                a5_faces::sqrt_rounds(black_box(2.0 + at as f64))
            }),
            None,
            None,
        ),
    ]
}

// PROJ's, forward.
#[cfg(with_proj)]
fn projections(points: &Points) -> Vec<(&'static str, Run<'_>)> {
    let forward = |definition: &std::ffi::CStr| {
        let mut projection = projections::Projection::new(definition);
        each(&points.geodetic, move |[longitude, latitude]| {
            projection.forward(longitude, latitude)
        })
    };
    vec![
        ("isea", forward(c"+proj=isea +ellps=WGS84")),
        ("rhealpix", forward(c"+proj=rhealpix +ellps=WGS84")),
    ]
}

#[cfg(not(with_proj))]
fn projections(points: &Points) -> Vec<(&'static str, Run<'_>)> {
    black_box(&points.geodetic);
    Vec::new()
}

// ---- the tables

fn median(mut times: Vec<f64>) -> f64 {
    times.sort_by(f64::total_cmp);
    times[times.len() / 2]
}

fn show(time: f64) -> String {
    match time {
        t if t < 100.0 => format!("{t:.1}"),
        t => format!("{t:.0}"),
    }
}

fn main() {
    let runs = std::env::args()
        .nth(1)
        .map_or(401, |word| word.parse().expect("how many runs"));
    let points = Points::new();
    let table = Table::load(include_bytes!("../../bindings/turned.eat")).expect("a table");
    let mut rows = on_a_set(&points, &table);
    rows.extend(lists(&points, &table));
    rows.extend(conversions(&points));
    rows.extend(shows(&points));
    rows.extend(beside_a_set(&points));
    rows.extend(turns_and_files(&table));
    let mut projections = projections(&points);
    let mut times = vec![[const { Vec::new() }; 3]; rows.len()];
    let mut projection_times = vec![Vec::new(); projections.len()];
    // the forms take turns, and each run takes the next points
    for run in 0..runs {
        let at = run * A_RUN % (POINTS - LIST.max(A_RUN));
        for (row, times) in rows.iter_mut().zip(&mut times) {
            times[0].push((row.ours)(at));
            for (form, times) in [&mut row.with, &mut row.plain]
                .into_iter()
                .zip(&mut times[1..])
            {
                if let Some(form) = form {
                    times.push(form(at));
                }
            }
        }
        for ((_, forward), times) in projections.iter_mut().zip(&mut projection_times) {
            times.push(forward(at));
        }
    }
    print_calls(&rows, times);
    if !projections.is_empty() {
        println!("\n| PROJ, forward | ns |\n|---|---|");
    }
    for ((name, _), times) in projections.iter().zip(projection_times) {
        println!("| {name} | {} |", show(median(times)));
    }
}

fn print_calls(rows: &[Row], times: Vec<[Vec<f64>; 3]>) {
    println!("| call | ours, ns | with a table, ns | plain Rust, ns | ours by plain |");
    println!("|---|---|---|---|---|");
    for (row, times) in rows.iter().zip(times) {
        let [ours, with, plain] =
            times.map(|times: Vec<f64>| (!times.is_empty()).then(|| median(times)));
        let words = |time: Option<f64>| time.map_or(String::new(), show);
        let ratio = ours
            .zip(plain)
            .map_or(String::new(), |(a, b)| format!("{:.2}", a / b));
        println!(
            "| {} | {} | {} | {} | {ratio} |",
            row.name,
            words(ours),
            words(with),
            words(plain)
        );
    }
}
