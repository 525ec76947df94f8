
// Ways for the oracle to what is private here.
impl DodecahedronProjection {
    pub fn oracle_should_reflect(&self, polar: Polar) -> bool {
        self.should_reflect(polar)
    }

    pub fn oracle_triangle_index(&self, polar: Polar) -> usize {
        self.get_face_triangle_index(polar).expect("an index")
    }

    pub fn oracle_normalize_gamma(&self, gamma: Radians) -> Radians {
        self.normalize_gamma(gamma)
    }

    // "Face slot i (0..9) is the base triangle, 10+i reflected with scale 2, 20+i reflected and squashed."
    pub fn oracle_face_triangle(&mut self, slot: usize) -> FaceTriangle {
        self.get_face_triangle(slot % 10, slot >= 10, slot >= 20)
            .expect("a triangle")
    }

    // "Sphere slot is 10·origin + index, plus 120 if reflected."
    pub fn oracle_spherical_triangle(&mut self, slot: usize) -> SphericalTriangle {
        let origin = (slot % 120 / 10) as OriginId;
        self.get_spherical_triangle(slot % 10, origin, slot >= 120)
            .expect("a triangle")
    }

    // As new does, but with a frame and caches of the oracle's.
    pub fn oracle_with(
        crs: CRS,
        face_triangles: Vec<Option<FaceTriangle>>,
        spherical_triangles: Vec<Option<SphericalTriangle>>,
    ) -> Self {
        let equal_area = EqualAreaProjection::new(crs.get_canonical_triangle());
        DodecahedronProjection {
            face_triangles,
            spherical_triangles,
            equal_area,
            gnomonic: GnomonicProjection,
            crs,
        }
    }

    pub fn oracle_face_triangles(&self) -> &[Option<FaceTriangle>] {
        &self.face_triangles
    }

    pub fn oracle_spherical_triangles(&self) -> &[Option<SphericalTriangle>] {
        &self.spherical_triangles
    }
}

pub fn oracle_transform_quat(v: Cartesian, q: [f64; 4]) -> Cartesian {
    transform_quat(v, q)
}
