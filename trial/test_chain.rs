//! Chains of distances: the steps of each, every refusal and their order.

use crate::rng::Rng;
use trial::chain::chain;
use trial::sheet::{distance, Axis};

fn axis(lead: f64, steps: f64, gear: f64) -> Axis {
    Axis { lead, steps, gear }
}

/// A step to each thousandth, so that sums are results.
const FINE: Axis = Axis { lead: 1.0, steps: 1_000.0, gear: 1.0 };
/// A step to each mm, so that 1,000,000 mm are in 24 bits.
const COARSE: Axis = Axis { lead: 1.0, steps: 1.0, gear: 1.0 };
const FAR: i64 = 1_000_000_000;

/// With an output of the right length, which a refusal must leave as it was.
fn steps(axis: Axis, distances: &[i64]) -> Result<Vec<i32>, u8> {
    let mut out = vec![7; distances.len()];
    let refused = chain(axis, distances, &mut out);
    assert!(refused.is_ok() || out.iter().all(|&v| v == 7), "{distances:?}");
    refused.map(|()| out)
}

fn refused(axis: Axis, refusal: u8, chains: &[&[i64]]) {
    for distances in chains {
        assert_eq!(steps(axis, distances), Err(refusal), "{distances:?}");
    }
}

#[test]
fn the_rack_of_the_workshop() {
    let hundred = axis(1.0, 100.0, 1.0);
    assert_eq!(steps(hundred, &[333, 333, 333]), Ok(vec![33, 34, 33]));
    assert_eq!(steps(hundred, &[-333, -333, -333]), Ok(vec![-33, -34, -33]));
    assert_eq!(distance(hundred, 0.333), Ok(33));
    assert_eq!(distance(hundred, 0.999), Ok(100));
    let rack = steps(hundred, &[333; 1_000]).unwrap();
    assert_eq!(rack.iter().sum::<i32>(), 33_300);
    assert!(rack.iter().all(|v| [33, 34].contains(v)));
}

#[test]
fn zeros_and_ways_back() {
    let hundred = axis(1.0, 100.0, 1.0);
    assert_eq!(steps(hundred, &[0, 333, 0, 0, 333, -666, 0]), Ok(vec![0, 33, 0, 0, 34, -67, 0]));
    assert_eq!(steps(FINE, &[5, -12, 8]), Ok(vec![5, -12, 8]));
    assert_eq!(steps(COARSE, &[400, 400, -400, -400, -400]), Ok(vec![0, 1, -1, 0, 0]));
}

/// Half a step to a mm. 0.5, 1, 1.5, 2 and 2.5 steps become 1, 1, 2, 2 and 3.
#[test]
fn halves_of_the_sums() {
    let half = axis(4.0, 2.0, 1.0);
    assert_eq!(steps(half, &[1_000; 5]), Ok(vec![1, 0, 1, 0, 1]));
    assert_eq!(steps(half, &[-1_000; 5]), Ok(vec![-1, 0, -1, 0, -1]));
    assert_eq!(steps(half, &[1_000, -2_000, 4_000]), Ok(vec![1, -2, 3]));
    assert_eq!(steps(half, &[999, 1, -1]), Ok(vec![0, 1, -1]));
    let less = axis(1.0, 1_000.0, 0.49999999999999994);
    assert_eq!(steps(less, &[1, 1, 1]), Ok(vec![0, 1, 0]));
}

/// 1.005 mm are a little less as a float, and 100.5 steps so 100; the float of 0.001 is a little more than
/// that, and 1,005 times it would come to 101.
#[test]
fn divided_by_a_thousand() {
    assert_eq!(steps(axis(1.0, 100.0, 1.0), &[1_000, 5]), Ok(vec![100, 0]));
    assert_eq!(steps(axis(1.0, 100.0, 1.0), &[285, 280]), Ok(vec![28, 28]));
}

#[test]
fn lengths_refused_first() {
    let wrong = axis(f64::NAN, 0.0, -1.0);
    let far = [i64::MAX; 1_001];
    for axis in [COARSE, wrong] {
        for (length, output) in
            [(1_001, 1_001), (1_001, 1_000), (1_000, 1_001), (1_000, 999), (1, 0), (0, 1), (2, 1), (0, 1_001)]
        {
            let mut out = vec![7; output];
            assert_eq!(chain(axis, &far[..length], &mut out), Err(105), "{length} {output}");
            assert_eq!(out, vec![7; output]);
        }
    }
    assert_eq!(steps(FINE, &[1; 1_000]), Ok(vec![1; 1_000]));
    assert_eq!(steps(FINE, &[1; 1_001]), Err(105));
}

#[test]
fn axes_before_sums() {
    for wrong in [f64::NAN, 0.0, -0.0, -1.0, 1_000_000.0000000001, f64::INFINITY, 5e-324] {
        for axis in [axis(wrong, 1.0, 1.0), axis(1.0, wrong, 1.0), axis(1.0, 1.0, wrong)] {
            refused(axis, 201, &[&[], &[1], &[FAR + 1], &[i64::MIN], &[8_388_608, FAR]]);
        }
    }
}

#[test]
fn an_empty_chain() {
    assert_eq!(steps(FINE, &[]), Ok(Vec::new()));
    assert_eq!(chain(FINE, &[], &mut [7]), Err(105));
}

#[test]
fn sums_refused_wherever_they_stand() {
    assert_eq!(steps(COARSE, &[FAR]), Ok(vec![1_000_000]));
    assert_eq!(steps(COARSE, &[-FAR]), Ok(vec![-1_000_000]));
    assert_eq!(steps(COARSE, &[FAR, 0, -2 * FAR, 1]), Ok(vec![1_000_000, 0, -2_000_000, 0]));
    refused(COARSE, 202, &[&[FAR + 1], &[-FAR - 1], &[FAR, 1], &[FAR, 1, -1], &[-FAR, -1, 1]]);
    refused(COARSE, 202, &[&[0, FAR + 1, -FAR], &[FAR, -FAR, FAR, 1, -FAR], &[1, FAR]]);
}

#[test]
fn no_sum_overflows() {
    let (low, high) = (i64::MIN, i64::MAX);
    refused(COARSE, 202, &[&[low], &[high], &[low, low], &[high, high, 2], &[low, high], &[high, low, 1]]);
    refused(COARSE, 202, &[&[FAR, high], &[-FAR, low], &[1, high], &[-1, low], &[FAR, low], &[-FAR, high]]);
    refused(COARSE, 202, &[&[high - FAR + 1, FAR], &[1 << 32], &[-(1 << 32), 1 << 32], &[1 << 63]]);
    refused(COARSE, 202, &[&[low; 1_000], &[high; 1_000]]);
}

#[test]
fn results_and_differences_refused() {
    assert_eq!(steps(FINE, &[8_388_607]), Ok(vec![8_388_607]));
    assert_eq!(steps(FINE, &[-8_388_608]), Ok(vec![-8_388_608]));
    refused(FINE, 203, &[&[8_388_608], &[-8_388_609], &[8_388_608, -1], &[1, 8_388_607, -8_388_608]]);
    assert_eq!(steps(FINE, &[-1, 8_388_607]), Ok(vec![-1, 8_388_607]));
    assert_eq!(steps(FINE, &[8_388_607, -8_388_608]), Ok(vec![8_388_607, -8_388_608]));
    refused(FINE, 203, &[&[-1, 8_388_608], &[1, -8_388_609], &[8_388_607, -16_777_215]]);
    refused(FINE, 203, &[&[-8_388_608, 16_777_215, -16_777_215], &[-8_388_608, 8_388_608]]);
    let most = axis(1_000.0, 8_388.607, 1.0);
    assert_eq!(steps(most, &[FAR]), Ok(vec![8_388_607]));
    let more = axis(1_000.0, 8_388.608, 1.0);
    assert_eq!(steps(more, &[-FAR]), Ok(vec![-8_388_608]));
    refused(more, 203, &[&[FAR], &[-FAR, FAR, 0, FAR], &[FAR - 1]]);
}

/// The whole chain is asked for sums that are too far before any of it is for results.
#[test]
fn sums_before_results() {
    refused(FINE, 202, &[&[8_388_608, FAR], &[-1, 8_388_608, FAR], &[FAR + 1, -FAR]]);
    refused(FINE, 202, &[&[-8_388_609, i64::MIN], &[i64::MAX, -1]]);
    let more = axis(1_000.0, 8_388.608, 1.0);
    refused(more, 202, &[&[FAR, 1], &[FAR, 1, -FAR], &[-FAR, 2 * FAR, 1]]);
}

/// An axis, and distances that mostly stay in range with it; or sums in fives of thousandths at 100 steps per
/// mm, which often come to a half.
fn random(rng: &mut Rng) -> (Axis, Vec<i64>) {
    let count = rng.between(1, 60);
    if rng.once_in(3) {
        let distances = (0..count).map(|_| 5 * rng.between(-300, 500)).collect();
        return (axis(1.0, 100.0, 1.0), distances);
    }
    let lead = rng.between(1, 4_000) as f64 / 100.0;
    let gear = rng.between(1, 300) as f64 / 100.0;
    let reach = rng.pick(&[3, 400, 30_000, 900_000]);
    let distances = (0..count).map(|_| rng.between(-reach, reach)).collect();
    (axis(lead, rng.pick(&[2.0, 100.0, 200.0, 400.0]), gear), distances)
}

/// Up to each distance, the steps are those of the whole way so far.
#[test]
fn steps_come_to_those_of_the_sum() {
    let mut rng = Rng::new(1);
    let mut delivered = 0;
    for _ in 0..3_000 {
        let (axis, distances) = random(&mut rng);
        let Ok(found) = steps(axis, &distances) else { continue };
        delivered += 1;
        let (mut way, mut made) = (0, 0);
        for (further, steps) in distances.iter().zip(found) {
            way += further;
            made += steps;
            assert_eq!(distance(axis, way as f64 / 1_000.0), Ok(made), "{axis:?} {distances:?}");
        }
    }
    assert!(delivered > 2_000, "{delivered}");
}

#[test]
fn one_alone_is_a_single_distance() {
    let mut rng = Rng::new(2);
    for _ in 0..20_000 {
        let (axis, _) = random(&mut rng);
        let reach = rng.pick(&[10, 5_000, 10_000_000, FAR + 3]);
        let inside = rng.between(-reach, reach);
        let alone = rng.pick(&[reach, -reach, inside, inside]);
        let single = distance(axis, alone as f64 / 1_000.0).map(|v| vec![v]);
        assert_eq!(steps(axis, &[alone]), single, "{axis:?} {alone}");
    }
}
