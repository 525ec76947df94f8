
// Ways for the oracle to what is private here.
impl CRS {
    pub fn oracle_rows(&self) -> &[Cartesian] {
        &self.vertices
    }

    pub fn oracle_with(vertices: Vec<Cartesian>) -> CRS {
        CRS { vertices }
    }
}

pub fn oracle_transform_quat(v: Cartesian, q: [f64; 4]) -> Cartesian {
    transform_quat(v, q)
}
