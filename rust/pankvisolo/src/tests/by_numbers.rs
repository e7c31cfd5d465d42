//! Sizes and offsets of the structs as declared here, against those of the C header.

use std::fmt::Write;
use std::mem::{offset_of, size_of};

use super::c_compiler::output_of;
use crate::ffi::{Extent, Group, Id, Reading, Reply, Request};

/// Lines as c/layout.c prints them.
macro_rules! layout {
    ($($declared:ident $name:ident { $($field:ident)* })*) => {{
        let mut lines = String::new();
        $(
            let size = size_of::<$declared>();
            writeln!(lines, "{}: {size}", stringify!($name)).unwrap();
            $(
                let offset = offset_of!($declared, $field);
                let size = size_of_field(|it: &$declared| &it.$field);
                writeln!(lines, "{}.{}: {offset} {size}", stringify!($name), stringify!($field))
                    .unwrap();
            )*
        )*
        lines
    }};
}

fn size_of_field<T, F>(_: impl Fn(&T) -> &F) -> usize {
    size_of::<F>()
}

#[test]
fn sizes_and_offsets_are_those_of_the_header() {
    let declared = layout! {
        Group group {
            epoch target_epoch tick
            member_ids member_epochs subscriptions timeouts heard revoked_at
            topic_ids topic_counts
            target holder waiting
        }
        Request request { id epoch tick timeout has_subscription subscription has_list }
        Id id { bytes }
        Reply reply { number interval epoch count slot written }
        Reading reading { verdict end }
        Extent extent { verdict start end }
    };
    assert_eq!(declared, output_of("layout"));
}

/// The group as the Rattle crate `group` declares it: numbers of four bytes, then of one, with no
/// bytes between them.
#[test]
fn a_group_is_its_arrays_one_after_another() {
    let offsets = [
        offset_of!(Group, epoch),
        offset_of!(Group, member_ids),
        offset_of!(Group, member_epochs),
        offset_of!(Group, subscriptions),
        offset_of!(Group, timeouts),
        offset_of!(Group, heard),
        offset_of!(Group, revoked_at),
        offset_of!(Group, topic_ids),
        offset_of!(Group, topic_counts),
        offset_of!(Group, target),
        offset_of!(Group, holder),
        offset_of!(Group, waiting),
        size_of::<Group>(),
    ];
    let lengths = [
        4 * 3,
        4 * 4 * 32,
        4 * 32,
        4 * 32,
        4 * 32,
        4 * 32,
        4 * 32,
        16 * 16,
        16,
        1_024,
        1_024,
        1_024,
    ];
    let found: Vec<usize> = offsets.windows(2).map(|two| two[1] - two[0]).collect();
    assert_eq!((offsets[0], found), (0, lengths.to_vec()));
    assert_eq!(size_of::<Group>(), 4_508);
}
