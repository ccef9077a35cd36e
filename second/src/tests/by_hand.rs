//! Every line of 'Checked by hand', and of 'Errors the spreadsheet taught us'.

use super::*;
use crate::answer::{answer, host, line, listing, PROGRAM_BUDGET};
use crate::draft;
use crate::interference::{held, later, modulo, phase};

#[test]
fn held_back_count_of_the_candidate_itself() {
    for (jitter, count) in [(0, 0), (3, 1), (10, 1), (11, 2)] {
        let candidate = Task { jitter, ..task(0, &[1], 1) };
        let phase = phase(10, &candidate, &candidate);
        assert_eq!(held(10, jitter, phase), count, "J {jitter}");
    }
}

#[test]
fn phases_of_two_offsets() {
    let (first, second) = (task(0, &[1], 1), task(9, &[1], 1));
    assert_eq!(phase(20, &second, &first), 9);
    assert_eq!(phase(20, &first, &second), 11);
}

#[test]
fn imposed_and_released_charges() {
    let charges = |charging| [2, 3, 6, 12, 13].map(|t| later(charging, 10, 4, 2, t));
    assert_eq!(charges(Charging::Imposed), [0, 1, 4, 4, 5]);
    assert_eq!(charges(Charging::Released), [0, 4, 4, 4, 8]);
}

#[test]
fn jitter_above_the_period() {
    let table = alone(Task { jitter: 12, deadline: 20, ..task(0, &[2], 0) });
    let fixed = lower(&table);
    assert_eq!(phase(10, fixed.task(), fixed.task()), 8);
    let responses: Vec<Step> = steps(&fixed).into_iter().filter(|s| matches!(s, Step::Response { .. })).collect();
    let expected = [(-1, 2, 14), (0, 4, 6)];
    assert_eq!(responses, expected.map(|(job, completion, response)| Step::Response { job, completion, response }));
    assert_eq!(triple(&fixed, Charging::Imposed, PLENTY), (0, 14, 4));
}

#[test]
fn full_and_overloaded() {
    let full = alone(Task { deadline: 10, ..task(0, &[10], 0) });
    assert_eq!(triple(&lower(&full), Charging::Imposed, PLENTY).0, 0);
    assert_eq!(bound(&lower(&full), Charging::Imposed), 10);
    let overloaded = alone(task(0, &[11], 0));
    assert_eq!(triple(&lower(&overloaded), Charging::Imposed, PLENTY), (21, 0, 0));
    assert_eq!(triple(&lower(&overloaded), Charging::Imposed, 0), (21, 0, 0));
}

#[test]
fn two_modes() {
    let modes = above_lower(20, 20, vec![task(0, &[4, 1], 9), task(4, &[1, 4], 9)], 1);
    assert_eq!(bound(&lower(&modes), Charging::Imposed), 6);
    let greatest = above_lower(20, 20, vec![task(0, &[4], 9), task(4, &[4], 9)], 1);
    assert_eq!(bound(&lower(&greatest), Charging::Imposed), 9);
}

#[test]
fn sample_s() {
    let image = draft::image(&s());
    let expected = "task code bound evaluations mode candidate job\n0 0 2 3 0 0 0\n1 0 7 5 0 1 0\n2 20 5 6 0 2 0\n";
    assert_eq!(listing(&image, Charging::Imposed), expected);
    assert_eq!(line(&answer(&image, PROGRAM_BUDGET)), "accepted 0 2 3 0 0 0 0 7 5 0 1 0 20 5 6 0 2 0\n");
}

#[test]
fn sample_s_with_small_budgets() {
    let table = s();
    assert_eq!(triple(&lower(&table), Charging::Imposed, 5), (23, 0, 5));
    assert_eq!(triple(&lower(&table), Charging::Imposed, 6), (20, 5, 6));
    assert_eq!(triple(&lower(&table), Charging::Imposed, 0), (23, 0, 0));
}

#[test]
fn charging_releases_in_s() {
    assert_eq!(bound(&lower(&s()), Charging::Released), 7);
}

#[test]
fn past_the_horizon() {
    let table = alone(Task { blocking: 1, ..task(0, &[10], 0) });
    let needed = 1_677_722;
    assert_eq!(triple(&lower(&table), Charging::Imposed, PLENTY), (22, 0, needed));
    assert_eq!(triple(&lower(&table), Charging::Imposed, needed), (22, 0, needed));
    assert_eq!(triple(&lower(&table), Charging::Imposed, needed - 1), (23, 0, needed - 1));
}

/// One task, frame 10, T 10, C 3, P 5, D 10.
#[test]
fn the_image_in_hexadecimal() {
    let table = alone(Task { deadline: 10, ..task(0, &[3], 5) });
    let mut image = vec![0x10, 0x00, 0x00, 0xA0, 0x40, 0x00, 0x02, 0x84, 0x20];
    image.extend([0; 11]);
    image.extend([0x50, 0x28, 0x00, 0x00, 0x18]);
    assert_eq!(draft::image(&table), image);
    assert_eq!(crate::image::read(&image), Ok(table));
    assert_eq!(listing(&image, Charging::Imposed), "task code bound evaluations mode candidate job\n0 0 3 3 0 0 0\n");
}

#[test]
fn what_the_host_gets() {
    let image = draft::image(&s());
    assert_eq!(host(&image, 1, PLENTY), 7);
    assert_eq!(host(&image, 2, PLENTY), (20 << 32) + 5);
    assert_eq!(host(&image, 2, 5), 23 << 32);
    assert_eq!(host(&image, 3, PLENTY), 13 << 32);
    assert_eq!(host(&image, u32::MAX, 0), 13 << 32);
    assert_eq!(host(&[], 99, 0), 1 << 32);
    assert_eq!(host(&image[..4], 0, 9), (1 << 32) + 28);
}

#[test]
fn remainders_do_not_follow_the_sign() {
    assert_eq!(modulo(-12, 10), 8);
}

/// 'Imposed charges in L: a lone candidate of C 5 then gives L = 1, and jobs arriving at 3 are lost.'
#[test]
fn released_charges_in_the_busy_length() {
    let transaction = transaction(20, vec![task(0, &[5], 9), task(3, &[1], 1)]);
    let table = Table { frame: 20, transactions: vec![transaction] };
    let fixed = Fixed { table: &table, u: 0, a: 1 };
    assert!(steps(&fixed).contains(&Step::BusyLength(6)));
    // It waits from 3 to 5, and its event was at 0.
    assert_eq!(bound(&fixed, Charging::Imposed), 6);
}

/// 'At s = T exactly, charging C too little or a second job.'
#[test]
fn charges_one_period_later() {
    assert_eq!(later(Charging::Imposed, 10, 4, 0, 10), 4);
    assert_eq!(later(Charging::Released, 10, 4, 0, 10), 4);
    assert_eq!(later(Charging::Imposed, 10, 10, 0, 10), 10);
}
