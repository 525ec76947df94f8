// A set that owns its buffers.

use crate::calls;
use crate::{Face, LonLat, Panel, Place, PlaceResult, Refusal, Region, Spherical, Store, Table};

/// The frame, the face store and the sphere store, open from the start. The calls fill slots of the stores, which makes
/// later calls quicker; an answer never depends on the calls before it. A call takes the set as `&mut`, so that no two
/// threads use it at once. A set remembers the [`Table`] that it was opened with, and hands it to its calls.
#[derive(Clone, Debug)]
pub struct Set {
    frame: Box<[f64]>,
    face: Box<[f64]>,
    sphere: Box<[f64]>,
    // none: the built-in one, by the calls without a table
    table: Option<Table>,
}

impl Set {
    // Not open yet.
    fn unopened() -> Set {
        Set {
            frame: vec![0.0; crate::FRAME].into(),
            face: vec![0.0; crate::FACE_STORE].into(),
            sphere: vec![0.0; crate::SPHERE_STORE].into(),
            table: None,
        }
    }

    /// A newly opened set, with the built-in table.
    pub fn new() -> Result<Set, Refusal> {
        let mut set = Set::unopened();
        set.open()?;
        Ok(set)
    }

    /// A newly opened set, with a table.
    pub fn new_with(table: Table) -> Result<Set, Refusal> {
        let mut set = Set::unopened();
        set.open_with(table)?;
        Ok(set)
    }

    /// Writes the frame again and empties every slot, with the table that the set has.
    #[inline]
    pub fn open(&mut self) -> Result<(), Refusal> {
        match &self.table {
            None => calls::open(&mut self.frame, &mut self.face, &mut self.sphere),
            Some(table) => calls::open_with(
                table.numbers(),
                &mut self.frame,
                &mut self.face,
                &mut self.sphere,
            ),
        }
    }

    /// Opens the set with another table, which it then has. Where that is refused, the set stays as it was, with its table.
    pub fn open_with(&mut self, table: Table) -> Result<(), Refusal> {
        calls::open_with(
            table.numbers(),
            &mut self.frame,
            &mut self.face,
            &mut self.sphere,
        )?;
        self.table = Some(table);
        Ok(())
    }

    /// The table that the set was opened with.
    pub fn table(&self) -> Table {
        self.table.clone().unwrap_or_else(Table::built_in)
    }

    /// The point of a position on the face of an origin.
    #[inline]
    pub fn forward(&mut self, position: Spherical, origin: u8) -> Result<Face, Refusal> {
        let (frame, face, sphere) = (&self.frame, &mut self.face, &mut self.sphere);
        match &self.table {
            None => calls::forward(frame, face, sphere, position, origin),
            Some(t) => calls::forward_with(t.numbers(), frame, face, sphere, position, origin),
        }
    }

    /// The position of a point on the face of an origin.
    #[inline]
    pub fn inverse(&mut self, place: Place) -> Result<Spherical, Refusal> {
        let (frame, face, sphere) = (&self.frame, &mut self.face, &mut self.sphere);
        match &self.table {
            None => calls::inverse(frame, face, sphere, place),
            Some(t) => calls::inverse_with(t.numbers(), frame, face, sphere, place),
        }
    }

    /// The nearest origin of a longitude and latitude, and the point on its face.
    #[inline]
    pub fn place(&mut self, position: LonLat) -> Result<Place, Refusal> {
        let (frame, face, sphere) = (&self.frame, &mut self.face, &mut self.sphere);
        match &self.table {
            None => calls::place(frame, face, sphere, position),
            Some(t) => calls::place_with(t.numbers(), frame, face, sphere, position),
        }
    }

    /// Places the positions from first to last, as [`place`](Set::place) would one by one: what it gives for each.
    pub fn place_list(&mut self, positions: &[LonLat]) -> Vec<Result<Place, Refusal>> {
        let mut results = vec![PlaceResult::default(); positions.len()];
        self.place_list_into(positions, &mut results)
            .expect("a set's own buffers, and a result for each position");
        results.into_iter().map(PlaceResult::given).collect()
    }

    /// The same, to results that the caller keeps, and with nothing allocated. Another number of results than of positions is
    /// refused, and then none is written.
    #[inline]
    pub fn place_list_into(
        &mut self,
        positions: &[LonLat],
        results: &mut [PlaceResult],
    ) -> Result<(), Refusal> {
        let (frame, face, sphere) = (&self.frame, &mut self.face, &mut self.sphere);
        match &self.table {
            None => calls::place_list(frame, face, sphere, positions, results),
            Some(t) => calls::place_list_with(t.numbers(), frame, face, sphere, positions, results),
        }
    }

    /// An outline of 1 to 256 positions on one face: the origin that is nearest to each of them, the point of each on its
    /// face, and the box round the points. Refused where a position is, with the first one's refusal, and where two have
    /// different nearest origins; the set then stays as it was.
    pub fn region(&mut self, positions: &[LonLat]) -> Result<Region, Refusal> {
        // where there are too many it is refused before the points are counted
        let mut points = vec![Face { x: 0.0, y: 0.0 }; positions.len().min(crate::REGION)];
        let (frame, face, sphere) = (&self.frame, &mut self.face, &mut self.sphere);
        let (origin, bounds) = match &self.table {
            None => calls::region(frame, face, sphere, positions, &mut points),
            Some(t) => calls::region_with(t.numbers(), frame, face, sphere, positions, &mut points),
        }?;
        Ok(Region {
            origin,
            points,
            bounds,
        })
    }

    /// The longitude and latitude of a point on the face of an origin.
    #[inline]
    pub fn unplace(&mut self, place: Place) -> Result<LonLat, Refusal> {
        let (frame, face, sphere) = (&self.frame, &mut self.face, &mut self.sphere);
        match &self.table {
            None => calls::unplace(frame, face, sphere, place),
            Some(t) => calls::unplace_with(t.numbers(), frame, face, sphere, place),
        }
    }

    /// One step of a panel's registers, with the table that the set has: carries out the command in them, and writes there what it
    /// comes to ([`Panel`]).
    #[inline]
    pub fn step(&mut self, panel: &mut Panel) {
        let (frame, face, sphere) = (&self.frame, &mut self.face, &mut self.sphere);
        let block = panel.bytes_mut();
        let stepped = match &self.table {
            None => calls::panel_step(frame, face, sphere, block),
            Some(t) => calls::panel_step_with(t.numbers(), frame, face, sphere, block),
        };
        stepped.expect("a set's own buffers, its table, and 32 bytes");
    }

    /// The coordinates of a filled slot, six or nine; `None` where the slot is empty.
    #[inline]
    pub fn show(&self, store: Store, slot: usize) -> Result<Option<&[f64]>, Refusal> {
        calls::show(&self.face, &self.sphere, store, slot)
    }

    /// Show's companion: whether the slot is filled.
    #[inline]
    pub fn slot_state(&self, store: Store, slot: usize) -> Result<bool, Refusal> {
        calls::slot_state(&self.face, &self.sphere, store, slot)
    }

    /// The frame, the face store and the sphere store, to read.
    #[inline]
    pub fn buffers(&self) -> [&[f64]; 3] {
        [&self.frame, &self.face, &self.sphere]
    }
}
