//! Both conversions of the sheet.

use trial::sheet::{distance, speed, Axis, Speed};

fn axis(lead: f64, steps: f64, gear: f64) -> Axis {
    Axis { lead, steps, gear }
}

#[test]
fn the_papers_figures() {
    assert_eq!(distance(axis(5.0, 400.0, 1.0), 10.0), Ok(800));
    assert_eq!(distance(axis(4.0, 2.0, 1.0), 1.0), Ok(1));
    assert_eq!(distance(axis(4.0, 2.0, 1.0), -1.0), Ok(-1));
    assert_eq!(speed(axis(4.0, 400.0, 1.0), Speed::MmPerMinute(600.0)), Ok(1_000));
}

#[test]
fn halves_and_just_below() {
    let one = axis(1.0, 1.0, 1.0);
    for (mm, steps) in [
        (0.5, 1),
        (-0.5, -1),
        (1.5, 2),
        (2.5, 3),
        (-2.5, -3),
        (0.49999999999999994, 0),
        (-0.0, 0),
        (5e-324, 0),
    ] {
        assert_eq!(distance(one, mm), Ok(steps), "{mm}");
    }
}

#[test]
fn ends_of_the_result() {
    let one = axis(8.0, 8.0, 16.0);
    assert_eq!(distance(one, 8_388_607.0 / 16.0), Ok(8_388_607));
    assert_eq!(distance(one, 8_388_607.5 / 16.0), Err(203));
    assert_eq!(distance(one, 8_388_607.25 / 16.0), Ok(8_388_607));
    assert_eq!(distance(one, -8_388_608.25 / 16.0), Ok(-8_388_608));
    assert_eq!(distance(one, -8_388_608.5 / 16.0), Err(203));
    let one = axis(1.0, 1.0, 1.0);
    for (v, steps) in
        [(29.5, Ok(30)), (29.49, Err(203)), (10_000.49, Ok(10_000)), (10_000.5, Err(203)), (-0.0, Err(203))]
    {
        assert_eq!(speed(one, Speed::MmPerSecond(v)), steps, "{v}");
    }
}

#[test]
fn values_refused() {
    let one = axis(1.0, 1.0, 1.0);
    let above = 1_000_000.0000000001;
    for v in [above, f64::NAN, f64::INFINITY, -above, f64::NEG_INFINITY] {
        assert_eq!(distance(one, v), Err(202), "{v}");
        assert_eq!(speed(one, Speed::MmPerSecond(v)), Err(202), "{v}");
        assert_eq!(speed(one, Speed::MmPerMinute(v)), Err(202), "{v}");
    }
    assert_eq!(distance(one, -1_000_000.0), Ok(-1_000_000));
    assert_eq!(speed(one, Speed::MmPerSecond(-5e-324)), Err(202));
    assert_eq!(speed(one, Speed::MmPerSecond(1_000_000.0)), Err(203));
}

#[test]
fn axes_refused_first() {
    let below = f64::from_bits(0.001f64.to_bits() - 1);
    for wrong in [below, 0.0, -0.0, -1.0, f64::NAN, f64::INFINITY, 1_000_000.0000000001] {
        for axis in [axis(wrong, 1.0, 1.0), axis(1.0, wrong, 1.0), axis(1.0, 1.0, wrong)] {
            assert_eq!(distance(axis, f64::NAN), Err(201));
            assert_eq!(speed(axis, Speed::MmPerSecond(f64::NAN)), Err(201));
            assert_eq!(speed(axis, Speed::StepsPerSecond(-1)), Err(201));
        }
    }
    assert_eq!(distance(axis(0.001, 1_000_000.0, 0.001), 1.0), Ok(1_000_000));
}

#[test]
fn whole_steps_per_second() {
    let one = axis(1.0, 1.0, 1.0);
    for (v, result) in [
        (-1, Err(202)),
        (1_000_001, Err(202)),
        (i64::MIN, Err(202)),
        (0, Err(203)),
        (29, Err(203)),
        (10_001, Err(203)),
        (1_000_000, Err(203)),
        (30, Ok(30)),
        (10_000, Ok(10_000)),
    ] {
        assert_eq!(speed(one, Speed::StepsPerSecond(v)), result, "{v}");
    }
}
