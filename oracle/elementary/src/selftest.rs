// The oracle's own tests: its steps against the library's functions, exactly where those are exact, and closely
// where they are not; and document 01's marked points.

use crate::generator::Generator;
use crate::{inputs, steps, values};

fn same(a: f64, b: f64) -> bool {
    a.to_bits() == b.to_bits() || a.is_nan() && b.is_nan()
}

fn exact(name: &str, x: f64, ours: f64, library: f64) {
    assert!(
        same(ours, library),
        "{name} at {:016x}: {:016x}, the library's {:016x}",
        x.to_bits(),
        ours.to_bits(),
        library.to_bits()
    );
}

fn one(x: f64) {
    exact("sqrt", x, steps::sqrt(x), x.sqrt());
    exact("floor", x, steps::floor(x), x.floor());
    exact("round", x, steps::round(x), x.round());
    exact("abs", x, steps::abs(x), x.abs());
    // the library's max may give either zero of two
    let most = if x == 0.0 || x.is_nan() {
        0.0
    } else {
        x.max(0.0)
    };
    exact("max_zero", x, steps::max_zero(x), most);
}

fn exact_ones(g: &mut Generator) {
    for x in values::specials()
        .into_iter()
        .chain(inputs::roots(g))
        .chain(inputs::wholes(g))
    {
        one(x);
    }
    for _ in 0..2_000_000 {
        one(g.any());
        one(g.with_field(1010, 1080));
        one(g.subnormal());
    }
}

fn close(name: &str, x: f64, ours: f64, library: f64, most: f64) {
    assert!(
        (ours - library).abs() <= most,
        "{name} at {x:e}: {ours:e}, the library's {library:e}"
    );
}

// The steps are not the library's, so these say only that no step was taken down wrongly.
fn close_ones(g: &mut Generator) {
    for _ in 0..500_000 {
        let x = g.between(-10.0, 10.0);
        close("sin", x, steps::sin(x), x.sin(), 2e-15);
        close("cos", x, steps::cos(x), x.cos(), 2e-15);
        close(
            "tan",
            x,
            steps::tan(x),
            x.tan(),
            1e-14 * (1.0 + x.tan() * x.tan()),
        );
        close("atan", x, steps::atan(x), x.atan(), 1e-15);
        let y = g.between(-10.0, 10.0);
        close("atan2", x, steps::atan2(y, x), y.atan2(x), 2e-15);
        let t = g.unit();
        close("core", t, steps::core(t), t.atan(), 1e-15);
    }
}

// "Finite arguments beyond ±64", and up to there the steps are close to the library's too: TAU is off by 2.5e-16 a turn.
fn to_the_limit(g: &mut Generator) {
    for x in values::both_signs(&values::near(64.0)) {
        assert_eq!(steps::outside(x), x.abs() > 64.0, "outside at {x:e}");
    }
    for x in values::both_signs(&[0.0, f64::INFINITY, f64::NAN]) {
        assert!(!steps::outside(x), "outside at {x:e}");
    }
    assert!(steps::outside(f64::MAX) && steps::outside(-f64::MAX));
    for _ in 0..500_000 {
        let x = g.between(-64.0, 64.0);
        close("sin", x, steps::sin(x), x.sin(), 5e-15);
        close("cos", x, steps::cos(x), x.cos(), 5e-15);
    }
}

// A finite value's size in digits and places: digits * 2^(places - 1074).
fn digits(x: f64) -> (u64, u64) {
    let bits = x.abs().to_bits();
    let (field, rest) = (bits >> 52, bits % (1 << 52));
    if field == 0 {
        (rest, 0)
    } else {
        (rest + (1 << 52), field - 1)
    }
}

// Place by place on whole numbers, for finite x and a y that is not 0.
fn long_division(x: f64, y: f64) -> f64 {
    let ((mut m, k), (n, j)) = (digits(x), digits(y));
    if k < j {
        return x;
    }
    m %= n;
    for _ in j..k {
        m = 2 * m % n;
    }
    // m < 2^53, and m * 2^j is below y
    let mut left = m as f64 * f64::from_bits(1);
    for _ in 0..j {
        left *= 2.0;
    }
    left.copysign(x)
}

// The Rust's `%`, which the list of remainder is made of, against a division by hand.
fn divisions(g: &mut Generator) {
    let mut pairs = inputs::divisions(g);
    pairs.extend((0..20_000).map(|_| (g.any(), g.any())));
    for (x, y) in pairs {
        let by_hand = if !x.is_finite() || y.is_nan() || y == 0.0 {
            f64::NAN
        } else if y.is_infinite() {
            x
        } else {
            long_division(x, y)
        };
        exact("remainder", x, by_hand, x % y);
    }
}

fn marked_points() {
    exact("sqrt", 4.0, steps::sqrt(4.0), 2.0);
    exact(
        "sqrt",
        2.0,
        steps::sqrt(2.0),
        f64::from_bits(0x3ff6a09e667f3bcd),
    );
    exact("sqrt", -0.0, steps::sqrt(-0.0), -0.0);
    exact(
        "sqrt",
        f64::from_bits(1),
        steps::sqrt(f64::from_bits(1)),
        f64::from_bits((1023 - 537) << 52),
    );
    exact("floor", -0.5, steps::floor(-0.5), -1.0);
    exact("round", 0.5, steps::round(0.5), 1.0);
    exact("round", -2.5, steps::round(-2.5), -3.0);
    exact("sin", -0.0, steps::sin(-0.0), -0.0);
}

pub fn run() {
    let mut g = Generator::new(2);
    marked_points();
    exact_ones(&mut g);
    close_ones(&mut g);
    to_the_limit(&mut g);
    divisions(&mut g);
}
