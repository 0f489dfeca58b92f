//! A table's build through the bindings: middles as far apart as the radius, a plane, and lists that are refused.
use sokdrib::Refused;
use sokdrib::filter::{Into, Work, build};

#[test]
fn two_elements() {
    let middles = [[0.0; 3], [1.0, 0.0, 0.0]];
    let (mut starts, mut near, mut coef) = ([9; 4], [9; 5], [9.0; 5]);
    let mut work = Work::of(2);
    let mut made = |radius, planes: &[[f64; 6]], n| {
        let into = Into { starts: &mut starts, near: &mut near[..n], coef: &mut coef };
        let told = build(&middles, &[1.0, 1.0], radius, planes, into, &mut work);
        (told, starts, near, coef)
    };
    // Document 01: middles 1 apart, radius 1: each row only its own element.
    assert_eq!(made(1.0, &[], 5), (Ok(()), [0, 1, 2, 9], [0, 1, 9, 9, 9], [1.0, 1.0, 9.0, 9.0, 9.0]));
    // In the plane midway each element is the other's image, and the two have the same weight.
    assert_eq!(made(1.0, &[[0.5, 0.0, 0.0, 2.0, 0.0, 0.0]], 5).1, [0, 2, 4, 9]);
    // What is outside the domain is refused by its number, the first in document 01's order, and the lists are as they were.
    let lent = made(1.0, &[], 5);
    let refused = |number| (Err(Refused(number)), lent.1, lent.2, lent.3);
    assert_eq!(made(0.0009, &[[0.0; 6]; 4], 5), refused(8));
    assert_eq!(made(f64::NAN, &[], 5), refused(8));
    assert_eq!(made(1.0, &[[0.0; 6]; 4], 5), refused(10));
    assert_eq!(made(1.0, &[[0.0; 6]], 5), refused(11));
    assert_eq!(made(1.0, &[[0.0, 0.0, 0.0, 1.0, 0.0, 0.0], [0.0, 0.0, 0.0, 1.0, 1.0, 0.0]], 5), refused(12));
    // A row that ends past the lists: all are zero.
    assert_eq!(made(2.0, &[], 3), (Err(Refused(14)), [0; 4], [0, 0, 0, 1, 9], [0.0; 5]));
    work.bits.pop();
    let mut told = |middles: &[[f64; 3]], volumes: &[f64]| {
        let into = Into { starts: &mut starts, near: &mut near, coef: &mut coef };
        build(middles, volumes, 1.0, &[], into, &mut work)
    };
    assert_eq!(told(&middles, &[1.0, 0.0]), Err(Refused(4)));
    assert_eq!(told(&[[0.0; 3], [1_000_001.0, 0.0, 0.0]], &[1.0, 1.0]), Err(Refused(9)));
    assert_eq!(told(&middles, &[1.0, 1.0]), Err(Refused(14)));
}
