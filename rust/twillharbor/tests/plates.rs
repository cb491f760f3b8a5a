//! The start, order and straight calls through the safe interface: document 01's plates A,
//! B, C and G, and every refusal.

mod refused;

use twillharbor::Refusal::{Blank, Full, WorkShort};
use twillharbor::StartPointStrategy::{Inside, Outside};
use twillharbor::{
    Entry, Point, Refusal, Size, Start, StartPointStrategy, order, order_into, start, straight,
    straight_into,
};

const NOWHERE: Size = Size { width: 0, height: 0 };
const TEN: Size = Size { width: 10, height: 10 };
const BOTH: [StartPointStrategy; 2] = [Outside, Inside];

const G: ([f64; 6], [u32; 3]) = ([0.0, 0.0, 1.0, 0.0, 0.0, 1.0], [1, 1, 1]);

fn forward(contour: u32) -> Entry {
    Entry { contour, reversed: false }
}

fn reversed(contour: u32) -> Entry {
    Entry { contour, reversed: true }
}

fn path(points: &[(f64, f64)]) -> Vec<Point> {
    points.iter().map(|&(x, y)| Point { x, y }).collect()
}

/// All five functions refuse alike. The slices that two of them are lent hold what they held.
fn assert_refused(points: &[f64], lengths: &[u32], refusal: Refusal) {
    for strategy in BOTH {
        assert_eq!(start(points, lengths, TEN, strategy), Err(refusal));
        assert_eq!(order(points, lengths, TEN, strategy), Err(refusal));
        assert_eq!(straight(points, lengths, TEN, strategy), Err(refusal));
        let (mut entries, mut path, mut work) = ([7; 9], [7.0; 9], [7; 2]);
        let into = order_into(points, lengths, TEN, strategy, &mut entries, &mut work);
        assert_eq!(into, Err(refusal));
        let into = straight_into(points, lengths, TEN, strategy, &mut path, &mut work);
        assert_eq!(into, Err(refusal));
        assert_eq!((entries, path, work), ([7; 9], [7.0; 9], [7; 2]));
    }
}

#[test]
fn plate_a_is_blank_and_its_path_empty() {
    for lengths in [&[][..], &[0], &[0, 0, 0]] {
        for strategy in BOTH {
            assert_eq!(start(&[], lengths, TEN, strategy), Err(Blank));
            assert_eq!(order(&[], lengths, TEN, strategy), Ok(vec![]));
            assert_eq!(straight(&[], lengths, TEN, strategy), Ok(vec![]));
        }
    }
}

#[test]
fn plate_b_starts_forward_outside_and_reversed_inside() {
    let (points, lengths) = ([0.0, 0.0, 4.0, 0.0], [2]);
    let there = path(&[(0.0, 0.0), (4.0, 0.0)]);
    let back = path(&[(4.0, 0.0), (0.0, 0.0)]);
    for (strategy, entry, path) in [(Outside, forward(0), there), (Inside, reversed(0), back)] {
        let Entry { contour, reversed } = entry;
        assert_eq!(start(&points, &lengths, TEN, strategy), Ok(Start { contour, reversed }));
        assert_eq!(order(&points, &lengths, TEN, strategy), Ok(vec![entry]));
        assert_eq!(straight(&points, &lengths, TEN, strategy), Ok(path));
    }
}

#[test]
fn plate_c_starts_forward_for_both() {
    let (points, lengths) = ([0.0, 0.0, 10.0, 0.0], [2]);
    for strategy in BOTH {
        let first = Start { contour: 0, reversed: false };
        assert_eq!(start(&points, &lengths, TEN, strategy), Ok(first));
        assert_eq!(order(&points, &lengths, TEN, strategy), Ok(vec![forward(0)]));
        assert_eq!(
            straight(&points, &lengths, TEN, strategy),
            Ok(path(&[(0.0, 0.0), (10.0, 0.0)]))
        );
    }
}

#[test]
fn plate_g_keeps_its_order() {
    let (points, lengths) = G;
    assert_eq!(
        order(&points, &lengths, NOWHERE, Inside),
        Ok(vec![forward(0), forward(1), forward(2)])
    );
    assert_eq!(
        straight(&points, &lengths, NOWHERE, Inside),
        Ok(path(&[(0.0, 0.0), (1.0, 0.0), (0.0, 1.0)]))
    );
}

#[test]
fn squared_distances_are_rounded_once() {
    // Plate I's point is the farther one; with both products rounded the two would tie.
    let tiny = 2.0_f64.powi(-27);
    let (far, near) = ([1.0 + tiny, 1.25 * tiny], [1.0 + tiny, 0.0]);
    let first = start(&[near, far].concat(), &[1, 1], NOWHERE, Outside);
    assert_eq!(first, Ok(Start { contour: 1, reversed: false }));
    let entries = order(&[[0.0, 0.0], far, near].concat(), &[1, 1, 1], NOWHERE, Inside);
    assert_eq!(entries, Ok(vec![forward(0), forward(2), forward(1)]));
}

#[test]
fn skipped_contours_are_counted() {
    let (points, lengths) = ([9.0, 0.0, 5.0, 0.0, 0.0, 0.0, 4.0, 0.0], [0, 2, 0, 0, 2, 0]);
    let first = Start { contour: 4, reversed: false };
    assert_eq!(start(&points, &lengths, NOWHERE, Inside), Ok(first));
    assert_eq!(order(&points, &lengths, NOWHERE, Inside), Ok(vec![forward(4), reversed(1)]));
    assert_eq!(
        straight(&points, &lengths, NOWHERE, Inside),
        Ok(path(&[(0.0, 0.0), (4.0, 0.0), (5.0, 0.0), (9.0, 0.0)]))
    );
}

#[test]
fn a_result_alters_nothing_beyond_it() {
    let (points, lengths) = G;
    for beyond in 0..4 {
        let (mut entries, mut work) = (vec![7; 6 + beyond], [7; 3]);
        let into = order_into(&points, &lengths, NOWHERE, Inside, &mut entries, &mut work);
        assert_eq!(into, Ok(3));
        assert_eq!(entries[..6], [0, 0, 1, 0, 2, 0]);
        assert!(entries[6..].iter().all(|&n| n == 7));
        let mut path = vec![7.0; 6 + beyond];
        let into = straight_into(&points, &lengths, NOWHERE, Inside, &mut path, &mut work);
        assert_eq!(into, Ok(3));
        assert_eq!(path[..6], points);
        assert!(path[6..].iter().all(|&x| x == 7.0));
    }
}

#[test]
fn refusal_1_above_4096_contours() {
    assert_eq!(order(&[], &[0; 4_096], TEN, Outside), Ok(vec![]));
    refused::above_4096_contours(assert_refused);
}

#[test]
fn refusal_2_above_65536_points() {
    let all = straight(&[1.0; 2 * 65_536], &[65_535, 1], TEN, Outside);
    assert_eq!(all.map(|path| path.len()), Ok(65_536));
    refused::above_65536_points(assert_refused);
}

#[test]
fn refusal_3_unless_the_points_are_twice_the_sum() {
    refused::unless_the_points_are_twice_the_sum(assert_refused);
}

#[test]
fn refusal_4_at_the_first_coordinate_off_the_plate() {
    assert_eq!(order(&refused::SOUND, &[1, 2], TEN, Outside).map(|entries| entries.len()), Ok(2));
    refused::at_the_first_coordinate_off_the_plate(assert_refused);
}

#[test]
fn refusal_5_where_work_is_short() {
    let (points, lengths) = G;
    for held in 0..3 {
        // With room for nothing, refusal 6 would hold too.
        for room in [0, 6] {
            let (mut entries, mut work) = (vec![7; room], vec![8; held]);
            let into = order_into(&points, &lengths, TEN, Inside, &mut entries, &mut work);
            assert_eq!(into, Err(WorkShort { place: 0 }));
            let mut path = vec![7.0; room];
            let into = straight_into(&points, &lengths, TEN, Inside, &mut path, &mut work);
            assert_eq!(into, Err(WorkShort { place: 0 }));
            assert_eq!((entries, path, work), (vec![7; room], vec![7.0; room], vec![8; held]));
        }
    }
    // Skipped contours count.
    let into = order_into(&[], &[0, 0], TEN, Inside, &mut [], &mut [7]);
    assert_eq!(into, Err(WorkShort { place: 0 }));
}

#[test]
fn refusal_6_leaves_the_first_that_fit() {
    let (points, lengths) = G;
    for room in 0..6 {
        let place = room as u32 / 2;
        let written = room / 2 * 2;
        let (mut entries, mut work) = (vec![7; room], [8; 3]);
        let into = order_into(&points, &lengths, NOWHERE, Inside, &mut entries, &mut work);
        assert_eq!(into, Err(Full { place }));
        assert_eq!(entries[..written], [0, 0, 1, 0, 2, 0][..written]);
        assert!(entries[written..].iter().all(|&n| n == 7));
        let mut path = vec![7.0; room];
        let into = straight_into(&points, &lengths, NOWHERE, Inside, &mut path, &mut work);
        assert_eq!(into, Err(Full { place }));
        assert_eq!(path[..written], points[..written]);
        assert!(path[written..].iter().all(|&x| x == 7.0));
    }
}

#[test]
fn refusal_7_is_the_start_calls_alone() {
    assert_eq!(start(&[], &[0; 4_096], TEN, Inside), Err(Blank));
    let into = order_into(&[], &[0; 5], TEN, Inside, &mut [], &mut [7; 5]);
    assert_eq!(into, Ok(0));
    let into = straight_into(&[], &[], TEN, Inside, &mut [], &mut []);
    assert_eq!(into, Ok(0));
}

#[test]
fn sizes_may_be_as_large_as_they_come() {
    let size = Size { width: u32::MAX, height: u32::MAX };
    let (points, lengths) = ([-1.0, 0.0, 1.0, 0.0], [2]);
    let first = |reversed| Ok(Start { contour: 0, reversed });
    // The centre is 2,147,483,647.5 away along both: the two squared distances differ.
    assert_eq!(start(&points, &lengths, size, Outside), first(false));
    assert_eq!(start(&points, &lengths, size, Inside), first(true));
}
