//! Runs beside a plain list of the numbers that are in them.
use super::NumberRuns;
use std::alloc::Global;
use std::test::*;

const NUMBERS: u64 = 24;

// A step: which call, a number and a length, from a counter that runs through all of them.
fn step(at: u64) -> (u64, u64, u64) {
    let mixed = (at * 2_654_435_761) % 4_294_967_296;
    (mixed / 7 % 8, mixed / 64 % NUMBERS, 1 + mixed / 4096 % 5)
}

fn is_in(numbers: &[bool], number: u64) -> bool {
    numbers.get(number as usize).is_some_and(|it| *it)
}

fn are_in(numbers: &[bool], first: u64, n: u64) -> bool {
    (first..first + n).any(|number| is_in(numbers, number))
}

fn set(numbers: &mut [bool], first: u64, n: u64, to: bool) {
    for number in first..first + n {
        if let Some(it) = numbers.get_mut(number as usize) {
            *it = to;
        }
    }
}

// Makes a step, and the same one in the list where it wasn't refused.
fn make(runs: &mut NumberRuns, numbers: &mut [bool], at: u64) -> bool {
    let (call, first, n) = step(at);
    match call {
        0..=1 => {
            if are_in(numbers, first, n) {
                return true;
            }
            let done = runs.add(first, n);
            if done {
                set(numbers, first, n, true);
            }
            done
        }
        2..=4 => {
            let done = runs.take(first);
            if done {
                set(numbers, first, 1, false);
            }
            done
        }
        5..=6 => {
            let done = runs.give(first, at % 3 > 0, at % 5 > 0);
            if done {
                set(numbers, first, 1, true);
            }
            done
        }
        _ => {
            let done = runs.forget(first, first + n);
            if done {
                set(numbers, first, n, false);
            }
            done
        }
    }
}

// How many numbers are only in the runs or only in the list.
fn differing(runs: &NumberRuns, numbers: &[bool]) -> usize {
    (0..NUMBERS + 8)
        .filter(|number| runs.run_of(*number).is_some() != is_in(numbers, *number))
        .count()
}

// How many steps were refused, and after how many of them runs and list differed.
fn walk(alloc: Global, most: usize) -> (usize, usize) {
    let mut runs = NumberRuns::new(alloc, most);
    let mut numbers = [false; 32];
    let mut refused = 0;
    let mut wrong = 0;
    for at in 0..2_000 {
        if !make(&mut runs, &mut numbers, at) {
            refused += 1;
        }
        wrong += usize::from(differing(&runs, &numbers) > 0);
    }
    (refused, wrong)
}

#[test]
fn runs_have_the_numbers_of_a_plain_list(rt: HostRuntime) {
    let (refused, wrong) = walk(rt.alloc(), 100);
    assert_eq!(rt; (refused, wrong), (0, 0));
}

// Each refused step leaves all as it was. No run at all finds room in the first of these.
#[test]
fn a_step_without_room_changes_nothing(rt: HostRuntime) {
    for most in 0..6 {
        let (refused, wrong) = walk(rt.alloc(), most);
        assert_eq!(rt; (refused > 0, wrong), (true, 0), "with {most} runs");
    }
}

#[test]
fn a_taken_number_splits_its_run(rt: HostRuntime) {
    let mut runs = NumberRuns::new(rt.alloc(), 9);
    assert!(rt; runs.add(10, 5));
    assert!(rt; runs.take(12));
    assert_eq!(rt; runs.run_of(11), Some((10, 2)));
    assert_eq!(rt; runs.run_of(12), None);
    assert_eq!(rt; runs.run_from(12), Some((13, 2)));
    assert_eq!(rt; runs.run_from(14), Some((14, 1)));
    assert_eq!(rt; runs.run_from(15), None);
}

#[test]
fn a_given_number_joins_where_asked(rt: HostRuntime) {
    let mut runs = NumberRuns::new(rt.alloc(), 9);
    assert!(rt; runs.add(10, 2));
    assert!(rt; runs.add(13, 2));
    assert!(rt; runs.give(12, true, false));
    assert_eq!(rt; runs.run_of(10), Some((10, 3)));
    assert_eq!(rt; runs.run_of(13), Some((13, 2)));
    assert_eq!(rt;
        [runs.end_from(9), runs.end_from(10), runs.end_from(14)],
        [9, 15, 15]
    );
    assert!(rt; runs.take(12));
    assert!(rt; runs.give(12, true, true));
    assert_eq!(rt; runs.run_of(14), Some((10, 5)));
    assert!(rt; runs.add(15, 2));
    runs.join_at(15);
    runs.join_at(10);
    runs.join_at(0);
    assert_eq!(rt; runs.run_of(11), Some((10, 7)));
}

#[test]
fn runs_over_an_end_are_parted(rt: HostRuntime) {
    let mut runs = NumberRuns::new(rt.alloc(), 9);
    assert!(rt; runs.add(10, 10));
    assert!(rt; runs.forget(12, 15));
    assert_eq!(rt; runs.run_of(11), Some((10, 2)));
    assert_eq!(rt; runs.run_from(12), Some((15, 5)));
    runs.clear();
    assert_eq!(rt; runs.run_from(0), None);
    assert!(rt; !runs.give(u64::MAX, true, true));
}
