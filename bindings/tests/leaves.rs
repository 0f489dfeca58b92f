//! Document 01's cases of the leaves, and the ends of lent lists, through the bindings.
use sokdrib::geom::{Mirror, Vec3};
use sokdrib::{faces, ieee, topo};

#[test]
fn levels() {
    assert_eq!([0.5, -3.0, 7.0, f64::NAN].map(topo::level_of), [500, 0, 1000, 0]);
    assert_eq!(topo::modulus(1000, 1.0), 1.0);
    assert_eq!(topo::modulus(2000, 70.0), 70.0);
}

#[test]
fn levels_back() {
    let modulus = |level| topo::modulus(level, 1.0);
    assert!((0..=1000).all(|level| topo::level_with(modulus(level)) == Ok(level)));
    let none = Err(sokdrib::Refused(29));
    assert_eq!([0.5, f64::NAN, -0.0, modulus(1).next_up()].map(topo::level_with), [none; 4]);
    assert_eq!([modulus(0), modulus(1).next_down(), modulus(700), modulus(701).next_down(), 1.0].map(topo::level_below), [0, 0, 700, 700, 1000].map(Ok));
    assert_eq!([modulus(0).next_down(), 1.0f64.next_up(), f64::INFINITY, f64::NAN].map(topo::level_below), [none; 4]);
}

#[test]
fn triangle() {
    let v = Vec3::new;
    let (a, b, c) = (v(0.0, 0.0, 0.0), v(1.0, 0.0, 0.0), v(0.0, 1.0, 0.0));
    assert_eq!(faces::dist2_to_triangle(v(0.0, 0.0, 2.0), a, b, c), 4.0);
    assert_eq!(faces::dist2_to_triangle(v(0.25, 0.25, 1.0), a, b, c), 1.0);
}

#[test]
fn image() {
    let x0 = Mirror { point: Vec3::ZERO, normal: Vec3::new(1.0, 0.0, 0.0) };
    assert_eq!(x0.image(Vec3::new(2.0, 0.0, 0.0)), Vec3::new(-2.0, 0.0, 0.0));
}

#[test]
fn numbers() {
    assert_eq!(ieee::root::sqrt(2.0), std::f64::consts::SQRT_2);
    assert!(ieee::root::sqrt(-1.0).is_nan());
    assert_eq!(ieee::max(f64::NAN, 1.0), 1.0);
    assert_eq!(ieee::whole::round_half_away(2.5), 3);
    assert_eq!(ieee::whole::floor_at(-1.5), (1 << 63) - 2);
    assert_eq!(ieee::bits::to_bits(f64::from_bits(0xfff0_0000_0000_0001)), 0x7ff8_0000_0000_0000);
}

#[test]
fn lists_of_unequal_length() {
    let mut out = [9.0; 4];
    ieee::root::sqrt_each(&[4.0, 16.0], &mut out);
    assert_eq!(out, [2.0, 4.0, 9.0, 9.0]);
    ieee::root::sqrt_each(&[1.0; 8], &mut out[..3]);
    assert_eq!(out, [1.0, 1.0, 1.0, 9.0]);
    ieee::tanh_each(&[], &mut out);
    ieee::tanh_each(&[0.0; 2], &mut []);
    faces::dist2_each(&[[0.0, 0.0, 2.0]; 3], &[[0.0, 0.0, 0.0, 1.0, 0.0, 0.0, 0.0, 1.0, 0.0]; 2], &mut out);
    assert_eq!(out, [4.0, 4.0, 1.0, 9.0]);
}
