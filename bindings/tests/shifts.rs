//! A shift's calls, through the bindings.
use sokdrib::Refused;
use sokdrib::shift::{Shift, begin, grant};

#[test]
fn beginnings() {
    let jobs = [[1000, 1_000_000]; 17];
    let shift = begin(&jobs[..16]).unwrap();
    assert_eq!((shift.jobs, shift.share, shift.limit, shift.granted), (16, [1000; 16], [1_000_000; 16], [0; 16]));
    let two = begin(&[[1, 0], [7, 5]]).unwrap();
    assert_eq!((two.jobs, two.share[..3].to_vec(), two.limit[..3].to_vec()), (2, vec![1, 7, 0], vec![0, 5, 0]));
    for unfit in [&jobs[..], &[], &[[0, 1]], &[[1, 1], [1001, 1]], &[[1, 1_000_001]]] {
        assert_eq!(begin(unfit), Err(Refused(30)));
    }
}

#[test]
fn smallest_fraction_lowest_on_a_tie() {
    let mut shift = begin(&[[1, 9], [1, 9], [2, 9]]).unwrap();
    let granted: Vec<u32> = (0..8).map(|_| grant(&mut shift, &[2, 1, 0]).unwrap()).collect();
    assert_eq!(granted, [2, 0, 1, 2, 2, 0, 1, 2]);
    assert_eq!(shift.granted[..4], [2, 2, 4, 0]);
}

#[test]
fn once_each_and_below_the_limit() {
    let mut shift = begin(&[[1, 1], [1, 9]]).unwrap();
    assert_eq!(grant(&mut shift, &[0, 1, 0, 0]), Ok(0));
    assert_eq!(shift.granted[..2], [1, 0]);
    assert_eq!(grant(&mut shift, &[0, 0]), Err(Refused(31)));
    assert_eq!(grant(&mut shift, &[0, 1, 1]), Ok(1));
    assert_eq!(shift.granted[..2], [1, 1]);
}

#[test]
fn refusals_in_order_and_kept() {
    let fresh = begin(&[[3, 2], [5, 0]]).unwrap();
    let refused = |shift: Shift, named: &[u32]| {
        let mut left = shift;
        let number = grant(&mut left, named);
        assert_eq!(left, shift);
        number
    };
    assert_eq!(refused(fresh, &[]), Err(Refused(31)));
    assert_eq!(refused(fresh, &[1]), Err(Refused(31)));
    assert_eq!(refused(fresh, &[1, 2]), Err(Refused(30)));
    assert_eq!(refused(fresh, &[0, u32::MAX]), Err(Refused(30)));
    let spoiled = |spoil: fn(&mut Shift)| {
        let mut shift = fresh;
        spoil(&mut shift);
        shift
    };
    let all: [fn(&mut Shift); 10] = [
        |s| s.jobs = 0,
        |s| s.jobs = 17,
        |s| s.jobs = 3,
        |s| s.jobs = 1,
        |s| s.share[0] = 0,
        |s| s.share[1] = 1001,
        |s| s.limit[0] = 1_000_001,
        |s| s.granted[1] = 1,
        |s| s.granted[15] = 1,
        |s| s.limit[2] = 1,
    ];
    for spoil in all {
        assert_eq!(refused(spoiled(spoil), &[9]), Err(Refused(20)));
    }
    assert_eq!(refused(Shift::default(), &[]), Err(Refused(20)));
}

#[test]
fn used_up_at_a_million() {
    let mut shift = begin(&[[1, 1_000_000], [1, 1_000_000]]).unwrap();
    shift.granted[..2].copy_from_slice(&[400_000, 599_999]);
    assert_eq!(grant(&mut shift, &[1]), Ok(1));
    let before = shift;
    assert_eq!(grant(&mut shift, &[0, 1]), Err(Refused(31)));
    assert_eq!(shift, before);
    shift.granted[0] += 1;
    assert_eq!(grant(&mut shift, &[0, 1]), Err(Refused(20)));
}
