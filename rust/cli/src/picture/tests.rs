use super::*;
use crate::coordinator::Answer;
use crate::line::{read, Step};

fn run(group: &mut Group, lines: &str) {
    for line in lines.lines() {
        match read(line).unwrap() {
            Some(Step::Fresh { tick }) => *group = Group::new(tick),
            Some(Step::Event(event, lent)) => {
                let answer = event.run(group, lent).answer;
                assert!(!matches!(answer, Answer::Refused(_)), "{line}: {answer:?}");
            }
            None => {}
        }
    }
}

/// The picture after `lines`, with marks for what changed by `more` after them.
fn picture(lines: &str, more: &str) -> String {
    let mut group = Group::new(0);
    run(&mut group, lines);
    let before = Picture::of(&group);
    run(&mut group, more);
    let after = Picture::of(&group);
    after.lines(&before, Style::for_output(false)).join("\n")
}

/// 01's worked example up to P7.
const UP_TO_P7: &str = "fresh tick 1000
topic 0 id 11 count 3
join AA tick 1000 timeout 300 topics 0
install epoch 1 0-2 to p0
beat AA epoch 1
join BB tick 2000 timeout 300 topics 0
install epoch 2 0-1 to p0 2 to p1
beat BB epoch 2 list none";

#[test]
fn a_group_without_members() {
    let expected = "group   epoch 0, target epoch 0, no members
free    none";
    assert_eq!(picture("fresh tick 1000", ""), expected);
    let expected = "group   epoch 0, target epoch 0, no members
free    t0:0-2 t15:0";
    let topics = "topic 0 id 11 count 3\ntopic 15 id 22 count 1";
    assert_eq!(picture(topics, ""), expected);
}

#[test]
fn a_partition_on_its_way_from_one_to_the_other() {
    let expected = "group   epoch 2, target epoch 2
free    none
  place  member  epoch  holds   gives back  awaits
* p0     AA      1      t0:0-1  t0:2        -
  p1     BB      2      -       -           t0:2";
    assert_eq!(picture(UP_TO_P7, "beat AA epoch 1 list 0-2"), expected);
}

#[test]
fn nothing_changed() {
    let mut group = Group::new(0);
    run(&mut group, UP_TO_P7);
    let before = Picture::of(&group);
    run(&mut group, "beat BB epoch 2 list none tick +10");
    assert!(before == Picture::of(&group));
}

#[test]
fn a_member_that_went_has_a_last_row() {
    let expected = "group   epoch 3, target epoch 2
free    t0:0-2
  place  member  epoch  holds  gives back  awaits
* p0     AA      gone   -      -           -
  p1     BB      2      -      -           t0:2";
    assert_eq!(picture(UP_TO_P7, "leave AA"), expected);
}

/// Ten members, w0 to w9, at epochs 1 to 10.
fn ten_members(topics: &str) -> String {
    let joins = (0..10).map(|place| format!("join w{place} timeout 300 topics {topics}\n"));
    joins.collect()
}

#[test]
fn of_many_rows_those_that_changed() {
    let lines = |topics| format!("topic 0 id 11 count 64\n{}", ten_members(topics));
    let more = "install epoch 10 0-62 to p3 63 to p9\nbeat w3 epoch 4\nleave w9";
    let expected = "group   epoch 11, target epoch 10
free    t0:63
  place  member  epoch  holds    gives back  awaits
* p3     w3      10     t0:0-62  -           -
* p9     w9      gone   -        -           -
  and 8 as before";
    assert_eq!(picture(&lines("0"), more), expected);
    let expected = "group   epoch 10, target epoch 10
free    t0:0-63
  and 10 as before";
    assert_eq!(picture(&lines("none"), "install epoch 10"), expected);
}

#[test]
fn long_rows_are_broken() {
    let topics: String = (0..6)
        .map(|topic| format!("topic {topic} id 1{topic} count 64\n"))
        .collect();
    let lines = format!("{topics}join AA timeout 300 topics 0-5");
    let expected = "group   epoch 1, target epoch 1
free    t0:0-63 t1:0-63 t2:0-63 t3:0-63 t4:0-63 t5:0-63
  place  member  epoch  holds  gives back  awaits
* p0     AA      1      -      -           t0:0-63 t1:0-63 t2:0-63 t3:0-63
                                           t4:0-63 t5:0-63";
    assert_eq!(picture(&lines, "install epoch 1 0-383 to p0"), expected);
}

#[test]
fn all_rows_without_marks() {
    let mut group = Group::new(0);
    run(&mut group, &ten_members("0"));
    let lines = Picture::of(&group).all_lines(Style::for_output(false));
    assert_eq!(lines.len(), 2 + 1 + 10);
    assert_eq!(lines[0], "group   epoch 10, target epoch 0");
    assert_eq!(lines[12], "  p9     w9      10     -      -           -");
    let nobody = Picture::of(&Group::new(0)).all_lines(Style::for_output(false));
    assert_eq!(nobody[0], "group   epoch 0, target epoch 0, no members");
}
