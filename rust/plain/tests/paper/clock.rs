//! Ticks: 1001, the run-over, and which events set which tick.

use super::host::*;
use crate::coordinator::{Answer, Refusal};

const LARGEST_STEP: u32 = (1 << 31) - 1;

#[test]
fn a_tick_2_31_less_1_ahead_is_accepted_and_2_31_is_not() {
    for last in [0, 1, 1_000, LARGEST_STEP, 1 << 31, u32::MAX - 1, u32::MAX] {
        let mut host = Host::new(last);
        let far = last.wrapping_add(1 << 31);
        assert_eq!(host.sweep(far).answer, refused(Refusal::Clock));
        let joined = host.heartbeat(join(AA, far)).answer;
        assert_eq!(joined, refused(Refusal::Clock));

        let near = last.wrapping_add(LARGEST_STEP);
        assert_eq!(host.sweep(near).answer, Answer::Swept(0));
        assert_eq!(host.group.last_tick(), near);
        let mut host = Host::new(last);
        assert_eq!(host.heartbeat(join(AA, near)).answer, assigned(1, 0));
        assert_eq!(host.group.last_tick(), near);
    }
}

#[test]
fn a_tick_one_back_is_refused_and_the_same_tick_is_not() {
    for last in [0, 1, 5_000, u32::MAX] {
        let mut host = Host::new(last);
        let back = last.wrapping_sub(1);
        assert_eq!(host.sweep(back).answer, refused(Refusal::Clock));
        assert_eq!(host.sweep(last).answer, Answer::Swept(0));
    }
}

#[test]
fn the_session_runs_across_the_run_over() {
    let joined_at = u32::MAX - 10;
    let mut host = Host::new(joined_at);
    host.heartbeat(join(AA, joined_at));
    assert_eq!(host.sweep(44_988).answer, Answer::Swept(0));
    assert_eq!(host.sweep(44_989).answer, Answer::Swept(1));
}

#[test]
fn the_rebalance_timeout_runs_across_the_run_over() {
    let start = u32::MAX - 100;
    let mut host = Host::new(start);
    host.topic(0, [0x11; 16], 1);
    host.heartbeat(join(AA, start));
    host.install(1, &entries(&[(0, 0)]));
    host.heartbeat(ordinary(AA, 1, start, None));
    host.heartbeat(join(BB, start));
    host.install(2, &entries(&[(0, 1)]));
    host.heartbeat(ordinary(AA, 1, start, None));
    assert_eq!(host.member(0).revoking, [0]);
    assert_eq!(host.sweep(198).answer, Answer::Swept(0));
    assert_eq!(host.sweep(199).answer, Answer::Swept(1));
}

#[test]
fn a_member_silent_for_a_whole_run_over_looks_just_heard() {
    let mut host = Host::new(7);
    host.heartbeat(join(AA, 7));
    // Another's heartbeats move the clock around, and no sweep comes in between.
    for tick in [7 + LARGEST_STEP, 5, 7] {
        let answer = host.heartbeat(join(BB, tick)).answer;
        assert!(matches!(answer, Answer::Assignment { .. }));
    }
    assert_eq!((host.group.last_tick(), host.member(0).heard), (7, 7));
    assert_eq!(host.sweep(7 + 44_999).answer, Answer::Swept(0));
    assert_eq!(host.sweep(7 + 45_000).answer, Answer::Swept(2));
}

#[test]
fn accepted_heartbeats_set_both_ticks_and_sweeps_the_groups() {
    let mut host = after_p4();
    host.heartbeat(ordinary(AA, 1, 1_200, None));
    assert_eq!(
        (host.group.last_tick(), host.member(0).heard),
        (1_200, 1_200)
    );
    host.sweep(1_300);
    assert_eq!(
        (host.group.last_tick(), host.member(0).heard),
        (1_300, 1_200)
    );
    host.heartbeat(join(BB, 1_400));
    host.heartbeat(leave(BB, 1_500));
    assert_eq!(
        (host.group.last_tick(), host.member(0).heard),
        (1_500, 1_200)
    );
}

#[test]
fn topics_and_installs_set_no_tick() {
    let mut host = after_p4();
    host.topic(0, [0x11; 16], 4);
    assert_eq!(host.install(2, &runs(&[(0..4, 0)])).answer, Answer::Done);
    assert_eq!(
        (host.group.last_tick(), host.member(0).heard),
        (1_000, 1_000)
    );
}
