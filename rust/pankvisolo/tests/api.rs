//! The public names and signatures, on which hosts are built: this compiles only where every one of
//! them is as written here.

use std::fmt::Debug;
use std::io;
use std::path::Path;

use pankvisolo::journal::{self, Reader, Reading, Store, Verdict};
use pankvisolo::{Answer, Group, Heartbeat, Id, Member, Refusal, Reply, Topic};

const ID: Id = [0xAA; 16];

#[test]
fn events() {
    let _: fn(u32) -> Group = Group::new;
    let _: fn(&mut Group, &Heartbeat, &mut [u8], &mut [u16]) -> Reply = Group::heartbeat;
    let _: fn(&mut Group, u32, &mut [u8]) -> Reply = Group::sweep;
    let _: fn(&mut Group, u32, Id, u32, &mut [u8]) -> Reply = Group::topic;
    let _: fn(&mut Group, i32, &[u8], &mut [u8]) -> Reply = Group::install;
    let _: fn(&Group) -> [u8; 1024] = Group::range_target;
    let _: fn(u32, i32, i32) -> Group = Group::at_epochs;
    let _: fn(&Group) -> Group = Clone::clone;
}

#[test]
fn what_a_group_has() {
    let _: fn(&Group) -> i32 = Group::epoch;
    let _: fn(&Group) -> i32 = Group::target_epoch;
    let _: fn(&Group) -> u32 = Group::last_tick;
    let _: fn(&Group, u8) -> Option<Topic> = Group::topic_at;
    let _: fn(&Group, u8) -> Option<Member> = Group::member_at;
    let _: fn(&Group, u16) -> Option<u8> = Group::target_of;

    let group = Group::new(1_000);
    assert_eq!(group.topic_at(16), None);
    assert_eq!(group.member_at(32), None);
    assert_eq!(group.target_of(1_024), None);
}

/// Written out whole, so that a field more or less doesn't compile.
#[test]
fn what_goes_in_and_comes_out() {
    let _ = Heartbeat {
        id: ID,
        epoch: 0_i32,
        tick: 1_000_u32,
        timeout: 300_i32,
        subscription: Some(1_u16),
        owned: Some(&[0_u16][..]),
    };
    let topic = Topic {
        id: ID,
        count: 1_u8,
    };
    let member = Member {
        id: ID,
        epoch: 1_i32,
        subscription: 1_u16,
        timeout: 300_u32,
        assigned: Vec::<u16>::new(),
        revoking: Vec::<u16>::new(),
        heard: 1_000_u32,
        revoked_at: 1_000_u32,
    };
    let reply = Reply {
        answer: Answer::Assignment {
            epoch: 1_i32,
            interval: 5_000_u32,
            count: 0_usize,
        },
        written: 29_usize,
    };
    is_plain(topic);
    is_plain(reply);
    is_plain(reply.answer);
    is_plain(Refusal::Clock);
    assert_eq!(member, member.clone());
}

fn is_plain(_: impl Copy + Eq + Debug) {}

#[test]
fn every_answer_and_every_refusal() {
    let kind = |answer| match answer {
        Answer::Assignment { .. } => "assignment",
        Answer::Left => "left",
        Answer::Swept(0_u32..) => "swept",
        Answer::Done => "done",
        Answer::Refused(
            Refusal::Clock
            | Refusal::InvalidRequest
            | Refusal::UnknownMemberId
            | Refusal::GroupMaxSizeReached
            | Refusal::FencedMemberEpoch
            | Refusal::BadTarget { slot: 0_u16.. }
            | Refusal::Stale
            | Refusal::Already
            | Refusal::BadTopic
            | Refusal::EpochEnd
            | Refusal::Room,
        ) => "refused",
    };
    assert_eq!(kind(Answer::Left), "left");
    let _: fn(Refusal) -> u16 = Refusal::number;
}

#[test]
fn the_journal() {
    let _: [u8; 4] = journal::HEADING;
    let _: fn(&[u8], &mut [u8]) -> Option<usize> = journal::frame;
    let _: for<'a> fn(&'a [u8], u32) -> Reading<'a> = journal::read;
    let read = |bytes| {
        // Written out whole, so that a field or a case more or less doesn't compile.
        let Reading {
            group,
            end,
            verdict,
        } = journal::read(bytes, 1_000);
        let (_, _): (Group, usize) = (group, end);
        match verdict {
            Verdict::Whole => "whole",
            Verdict::Torn { tail: [..] } => "torn",
            Verdict::Refused { offset: 0_usize.. } => "refused",
        }
    };
    assert_eq!(
        [&b""[..], b"GRJ1", b"GRJ0"].map(read),
        ["torn", "whole", "refused"]
    );
}

#[test]
fn a_reader() {
    let _: fn(u32) -> Reader = Reader::new;
    let _: fn(&mut Reader, &[u8]) = Reader::push;
    let _: fn(&Reader) -> &Group = Reader::group;
    let _: fn(&Reader) -> usize = Reader::end;
    let _: fn(&Reader) -> Verdict<'_> = Reader::verdict;
}

#[test]
fn a_store() {
    let _: fn(&Path, u32) -> io::Result<Store> = Store::open;
    let _: fn(&Store) -> &Group = Store::group;
    let _: fn(&mut Store, &Heartbeat, &mut [u16]) -> io::Result<Answer> = Store::heartbeat;
    let _: fn(&mut Store, u32) -> io::Result<Answer> = Store::sweep;
    let _: fn(&mut Store, u32, Id, u32) -> io::Result<Answer> = Store::topic;
    let _: fn(&mut Store, i32, &[u8]) -> io::Result<Answer> = Store::install;
}
