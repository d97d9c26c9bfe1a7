//! What a host may set in a board's state by name, and the state as one line.

use crate::script::half;
use trial::arc::Arc;
use trial::board::{Board, Job};
use trial::motion::{Motion, Move};
use trial::number::push_decimal;

const BELOW: i64 = -8_388_608;
const ABOVE: i64 = 4_286_578_687;

/// Sets one field. None: no such field here, or a value it can't hold.
pub fn set(board: &mut Board, name: &str, value: i64) -> Option<()> {
    if let Some(counter) = counter(board, name) {
        *counter = (BELOW..=ABOVE).contains(&value).then_some(value as i32)?;
        return Some(());
    }
    match name {
        "axes" => board.axes = value.try_into().ok()?,
        "depth" => board.depth = value.try_into().ok()?,
        "len" => board.len = value.try_into().ok()?,
        "place" => board.place = half(value)?.into(),
        "over" => board.over = flag(value)?,
        "standing" => board.standing = flag(value)?,
        "plane" => board.turn.plane = plane(value)?,
        "turn" => board.turn.counter = counter_clockwise(value)?,
        _ => match motion(board)? {
            Motion::Straight(movement) => set_movement(movement, name, value)?,
            Motion::Arc(arc) => set_arc(arc, name, value)?,
        },
    }
    Some(())
}

fn flag(value: i64) -> Option<bool> {
    (0..=1).contains(&value).then_some(value == 1)
}

fn plane(value: i64) -> Option<u8> {
    (0..=2).contains(&value).then_some(value as u8)
}

/// Whether a direction is -1; only this and 0 are any.
fn counter_clockwise(value: i64) -> Option<bool> {
    (-1..=0).contains(&value).then_some(value == -1)
}

fn motion(board: &mut Board) -> Option<&mut Motion> {
    match &mut board.job {
        Job::Direct(motion) | Job::Moving(motion) => Some(motion),
        _ => None,
    }
}

/// A position, an origin, one axis of a straight movement's start or resting points, or an arc's centre or start.
fn counter<'a>(board: &'a mut Board, name: &str) -> Option<&'a mut i32> {
    let (point, axis) = name.split_at_checked(name.len().checked_sub(1)?)?;
    if let Some(which) = "12".find(axis) {
        let Motion::Arc(arc) = motion(board)? else { return None };
        return match point {
            "centre" => Some(&mut arc.centre[which]),
            "start" => Some(&mut arc.start[which]),
            _ => None,
        };
    }
    let axis = "xyza".find(axis)?;
    let point = match point {
        "" => return Some(&mut board.position[axis]),
        "o" => return Some(&mut board.origin[axis]),
        _ => ["start", "first", "second", "third"].iter().position(|&p| p == point)?,
    };
    let Motion::Straight(movement) = motion(board)? else { return None };
    Some(&mut movement.points[point][axis])
}

fn set_movement(movement: &mut Move, name: &str, value: i64) -> Option<()> {
    match name {
        "phase" => movement.phase = value.try_into().ok()?,
        "made" => movement.made = value.try_into().ok()?,
        "speed1" => movement.speeds[0] = value.try_into().ok()?,
        "speed2" => movement.speeds[1] = value.try_into().ok()?,
        "speed3" => movement.speeds[2] = value.try_into().ok()?,
        _ => return None,
    }
    Some(())
}

fn set_arc(arc: &mut Arc, name: &str, value: i64) -> Option<()> {
    match name {
        "arcplane" => arc.turn.plane = plane(value)?,
        "arcturn" => arc.turn.counter = counter_clockwise(value)?,
        "arcspeed" => arc.speed = value.try_into().ok()?,
        "length" => arc.length = value.try_into().ok()?,
        "made" => arc.made = value.try_into().ok()?,
        _ => return None,
    }
    Some(())
}

pub fn job_name(job: &Job) -> &'static str {
    match job {
        Job::Idle => "Idle",
        Job::Storing => "Storing",
        Job::Direct(_) => "Direct",
        Job::Ready => "Ready",
        Job::Moving(_) => "Moving",
        Job::Delay(_) => "Delay",
        Job::Wait(..) => "Wait",
    }
}

/// A counter as the host sees it: also those outside 24 bits.
fn seen(counter: i32) -> i64 {
    (counter as i64 - BELOW).rem_euclid(1 << 32) + BELOW
}

/// Whether what is under way has made exactly one pulse of its phase or arc.
pub fn first_of_a_phase(board: &Board) -> bool {
    matches!(&board.job, Job::Direct(motion) | Job::Moving(motion) if motion.made() == 1)
}

/// A name and its values, each with a space before it.
fn push_field(out: &mut Vec<u8>, name: &str, values: &[i64]) {
    out.push(b' ');
    out.extend_from_slice(name.as_bytes());
    for &v in values {
        out.push(b' ');
        push_decimal(out, v);
    }
}

/// The line T: the place before a call, and where the run has come to by it.
pub fn push_place(out: &mut Vec<u8>, from: u32, board: &Board) {
    out.extend_from_slice(b"T");
    push_field(out, "job", &[]);
    push_field(out, job_name(&board.job), &[]);
    push_field(out, "from", &[from as i64]);
    push_field(out, "place", &[board.place as i64]);
    push_field(out, "origin", &board.origin.map(seen));
    out.push(b'\n');
}

pub fn push_state(out: &mut Vec<u8>, board: &Board) {
    out.extend_from_slice(b"S");
    let mut field = |name: &str, values: &[i64]| push_field(out, name, values);
    field("axes", &[board.axes as i64]);
    field("position", &board.position.map(seen));
    field("origin", &board.origin.map(seen));
    field("three", &[board.three as i64]);
    field("output", &[board.output as i64]);
    field("used", &[board.used as i64]);
    field("records", &[board.records as i64]);
    field("store_axes", &[board.store_axes as i64]);
    field("job", &[]);
    field(job_name(&board.job), &[]);
    field("standing", &[board.standing as i64]);
    field("loops", &[board.depth as i64]);
    field("plane", &[board.turn.plane as i64]);
    field("direction", &[-(board.turn.counter as i64)]);
    out.push(b'\n');
}
