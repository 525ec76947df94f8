//! The caption box in Rust, tried on the linked library.

use a5_faces::{CaptionBox, Face, Refusal, Sides};

fn taken_in(points: &[(f64, f64)]) -> CaptionBox {
    let mut caption = CaptionBox::new();
    for &(x, y) in points {
        assert_eq!(caption.take_in(Face { x, y }), Ok(()));
    }
    caption
}

fn bits(caption: &CaptionBox) -> Option<[u64; 4]> {
    caption
        .sides()
        .map(|s| [s.least_x, s.greatest_x, s.least_y, s.greatest_y].map(f64::to_bits))
}

#[test]
fn a_new_box_has_no_sides() {
    let caption = CaptionBox::new();
    assert!(caption.is_empty());
    assert_eq!(caption.sides(), None);
    assert_eq!(format!("{caption:?}"), "CaptionBox(None)");
    assert!(CaptionBox::default().is_empty());
}

#[test]
fn the_first_point_is_every_side_and_later_ones_move_them() {
    let caption = taken_in(&[(-3.5, 2.0)]);
    assert!(!caption.is_empty());
    assert_eq!(
        caption.sides(),
        Some(Sides {
            least_x: -3.5,
            greatest_x: -3.5,
            least_y: 2.0,
            greatest_y: 2.0
        })
    );
    let caption = taken_in(&[(1.0, 1.0), (-0.5, 3.0), (0.25, -4.0), (4.0, 0.0)]);
    assert_eq!(
        caption.sides(),
        Some(Sides {
            least_x: -0.5,
            greatest_x: 4.0,
            least_y: -4.0,
            greatest_y: 3.0
        })
    );
}

#[test]
fn of_two_zeros_the_first_stays() {
    for first in [0.0, -0.0_f64] {
        let caption = taken_in(&[(first, first), (-first, -first)]);
        assert_eq!(bits(&caption), Some([first.to_bits(); 4]));
    }
}

#[test]
fn refused_points_leave_the_box() {
    let next = 4.0_f64.next_up();
    let wrong = [
        (f64::NAN, 0.0, Refusal::NotFinite),
        (f64::INFINITY, 0.0, Refusal::NotFinite),
        (0.0, f64::NEG_INFINITY, Refusal::NotFinite),
        (next, f64::NAN, Refusal::OutOfRange),
        (f64::NAN, next, Refusal::NotFinite),
        (0.0, -next, Refusal::OutOfRange),
        (1e300, 0.0, Refusal::OutOfRange),
    ];
    for mut caption in [CaptionBox::new(), taken_in(&[(0.5, -0.5), (-1.0, 1.0)])] {
        let before = bits(&caption);
        for (x, y, refusal) in wrong {
            assert_eq!(caption.take_in(Face { x, y }), Err(refusal));
            assert_eq!(bits(&caption), before);
        }
        assert_eq!(caption.take_in(Face { x: 4.0, y: -4.0 }), Ok(()));
    }
}

#[test]
fn the_order_leaves_the_sides_as_numbers() {
    let points = [
        (0.0, 1.0),
        (-0.0, -1.0),
        (2.5, 2.5),
        (-2.5, 0.0),
        (2.5, -0.0),
    ];
    let forth = taken_in(&points);
    let mut back = points;
    back.reverse();
    assert_eq!(forth.sides(), taken_in(&back).sides());
}
