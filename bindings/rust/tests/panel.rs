//! The caption panel, tried on the linked library: steps against the set's own place and unplace, byte by byte.

use a5_faces::{
    calls, Command, Face, LonLat, Panel, Place, Refusal, Set, Table, BLOCK, DONE, REFUSED,
};

const LONDON: [i32; 2] = [-1278000, 515074000];

fn degrees(inputs: [i32; 2]) -> LonLat {
    LonLat {
        longitude: f64::from(inputs[0]) / 1e7,
        latitude: f64::from(inputs[1]) / 1e7,
    }
}

fn on_face(inputs: [i32; 2], origin: u8) -> Place {
    let [x, y] = inputs.map(|n| f64::from(n) / 1e9);
    Place {
        origin,
        face: Face { x, y },
    }
}

// Every byte after a command that is done or refused, by what the call gave.
fn ended(before: &Panel, given: Result<[f64; 2], Refusal>, origin: Option<u8>) -> [u8; BLOCK] {
    let mut bytes = *before.bytes();
    bytes[0] = 0;
    match given {
        Ok(numbers) => {
            bytes[1] = 1;
            bytes[4] = origin.unwrap_or(bytes[4]);
            bytes[5] = 0;
            bytes[16..24].copy_from_slice(&numbers[0].to_be_bytes());
            bytes[24..].copy_from_slice(&numbers[1].to_be_bytes());
        }
        Err(refusal) => {
            bytes[1] = 2;
            bytes[5] = refusal.number();
        }
    }
    bytes[3] = u8::from(bytes[1] & bytes[2] & 3 != 0);
    bytes
}

// Place and unplace of every origin byte, with the given inputs, on one set; beside them the calls on another.
fn against_the_calls(set: &mut Set, apart: &mut Set) {
    let inputs = [i32::MIN, -900000001, -1, 0, 515074000, 900000000, i32::MAX];
    let mut panel = Panel::of([0xa5; BLOCK]);
    for (mask, a) in (0..).zip(inputs) {
        for b in inputs {
            panel.set_mask(mask);
            panel.ask_place(a, b);
            let before = panel;
            set.step(&mut panel);
            let given = apart.place(degrees([a, b]));
            let numbers = given.map(|p| [p.face.x, p.face.y]);
            let origin = given.ok().map(|p| p.origin);
            assert_eq!(panel.bytes(), &ended(&before, numbers, origin));
            assert_eq!(panel.place(), Some(given));
            for origin in [0, 5, 11, 12, 255] {
                panel.ask_unplace(a, b, origin);
                let before = panel;
                set.step(&mut panel);
                let given = apart.unplace(on_face([a, b], origin));
                let numbers = given.map(|p| [p.longitude, p.latitude]);
                assert_eq!(panel.bytes(), &ended(&before, numbers, None));
                assert_eq!(panel.lon_lat(), Some(given));
            }
        }
    }
    assert_eq!(set.buffers(), apart.buffers());
}

#[test]
fn a_step_is_place_or_unplace() {
    against_the_calls(&mut Set::new().unwrap(), &mut Set::new().unwrap());
}

#[test]
fn a_step_takes_the_table_of_its_set() {
    let table = Table::load(include_bytes!("../../turned.eat")).unwrap();
    let set = |table: &Table| Set::new_with(table.clone()).unwrap();
    against_the_calls(&mut set(&table), &mut set(&table));
}

#[test]
fn nothing_is_only_the_interrupt_line() {
    let mut set = Set::new().unwrap();
    for status in 0..=255 {
        for mask in 0..=255 {
            let mut panel = Panel::of([7; BLOCK]);
            panel.set_command(Command::Nothing);
            panel.set_mask(mask);
            panel.bytes_mut()[1] = status;
            let mut wanted = *panel.bytes();
            wanted[3] = u8::from(status & mask & 3 != 0);
            set.step(&mut panel);
            assert_eq!(panel.bytes(), &wanted);
        }
    }
}

#[test]
fn another_command_is_refused_with_12() {
    let mut set = Set::new().unwrap();
    for command in 3..=255 {
        let mut panel = Panel::of([0xff; BLOCK]);
        panel.set_command(Command::from_number(command));
        panel.set_mask(REFUSED);
        let before = panel;
        set.step(&mut panel);
        assert_eq!(
            panel.bytes(),
            &ended(&before, Err(Refusal::RecordKind), None)
        );
        assert!(panel.interrupt());
        assert_eq!(panel.command(), Command::Nothing);
    }
}

#[test]
fn an_exchange() {
    let mut set = Set::new().unwrap();
    let mut panel = Panel::new();
    assert_eq!(panel.place(), None);
    panel.set_mask(DONE);
    panel.ask_place(LONDON[0], LONDON[1]);
    set.step(&mut panel);
    assert!(panel.interrupt());
    let place = panel.place().unwrap().unwrap();
    let [x, y] = [place.face.x, place.face.y].map(|x| (x * 1e9).round() as i32);
    panel.ask_unplace(x, y, panel.origin());
    set.step(&mut panel);
    let back = panel.lon_lat().unwrap().unwrap();
    assert!((back.longitude + 0.1278).abs() < 1e-6 && (back.latitude - 51.5074).abs() < 1e-6);
    assert_eq!(panel.inputs(), [x, y]);
}

#[test]
fn the_step_itself_is_refused_in_order() {
    let mut buffers = [vec![0.0; 186], vec![0.0; 210], vec![0.0; 3120]];
    let table = Table::built_in();
    let mut step = |lengths: [usize; 3], block: usize, table: Option<&[f64]>| {
        let mut bytes = vec![1; block];
        let [frame, face, sphere] = &mut buffers;
        let (frame, face, sphere) = (
            &frame[..lengths[0]],
            &mut face[..lengths[1]],
            &mut sphere[..lengths[2]],
        );
        let given = match table {
            None => calls::panel_step(frame, face, sphere, &mut bytes),
            Some(t) => calls::panel_step_with(t, frame, face, sphere, &mut bytes),
        };
        assert_eq!(bytes, vec![1; block]);
        given
    };
    let mut bad = *table.numbers();
    bad[0] = 9.0;
    assert_eq!(step([0, 0, 0], 31, None), Err(Refusal::BlockLength));
    assert_eq!(step([0, 0, 0], 33, None), Err(Refusal::BlockLength));
    assert_eq!(step([185, 0, 0], 32, None), Err(Refusal::FrameLength));
    assert_eq!(step([186, 0, 0], 32, None), Err(Refusal::FaceStoreLength));
    assert_eq!(
        step([186, 210, 0], 32, None),
        Err(Refusal::SphereStoreLength)
    );
    assert_eq!(
        step([0, 0, 0], 31, Some(&bad[..83])),
        Err(Refusal::TableFile)
    );
    assert_eq!(step([0, 0, 0], 31, Some(&bad)), Err(Refusal::BlockLength));
    assert_eq!(step([0, 0, 0], 32, Some(&bad)), Err(Refusal::FrameLength));
    assert_eq!(
        step([186, 210, 3120], 32, Some(&bad)),
        Err(Refusal::TableNumber)
    );
    bad[0] = 0.0;
    bad[2] = 0.5;
    assert_eq!(
        step([186, 210, 3120], 32, Some(&bad)),
        Err(Refusal::TableQuaternion)
    );
}
