
// Paper 10: "The oracle gets the same rows." assemble puts this at the end of the stepped form's core/origin.rs, whose get_origins gives
// the origins of a table while some work is done.
thread_local! {
    static ORACLE_TABLE: std::cell::Cell<Option<&'static Vec<Origin>>> =
        const { std::cell::Cell::new(None) };
}

pub fn oracle_table() -> Option<&'static Vec<Origin>> {
    ORACLE_TABLE.get()
}

// "A row is axis theta, axis phi, four quaternion numbers and angle." The rest of an origin is the Rust's own, which cells alone take.
// What the work hands on does not refer to the origins.
pub fn oracle_with_table<T>(rows: &[f64], work: impl FnOnce() -> T) -> T {
    let own = ORIGINS.get_or_init(generate_origins).iter();
    let origins = own.zip(rows.chunks(7)).map(|(origin, row)| {
        let quat = [row[2], row[3], row[4], row[5]];
        let angle = Radians::new_unchecked;
        Origin {
            axis: Spherical::new(angle(row[0]), angle(row[1])),
            quat,
            inverse_quat: quat_conjugate(quat),
            angle: angle(row[6]),
            ..origin.clone()
        }
    });
    let table = Box::into_raw(Box::new(origins.collect::<Vec<Origin>>()));
    ORACLE_TABLE.set(Some(unsafe { &*table }));
    let given = work();
    ORACLE_TABLE.set(None);
    drop(unsafe { Box::from_raw(table) });
    given
}
