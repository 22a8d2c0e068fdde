//! The reply, and what a replay ends with, must lie in memory as the C interface says.

use std::mem::{align_of, offset_of, size_of};

use core_ffi::{Replayed, Reply};

#[test]
fn the_reply_has_the_layout_of_the_c_interface() {
    assert_eq!(size_of::<Reply>(), 8);
    assert_eq!(align_of::<Reply>(), 4);
    assert_eq!(offset_of!(Reply, number), 0);
    assert_eq!(offset_of!(Reply, status), 1);
    assert_eq!(offset_of!(Reply, preventers), 2);
    assert_eq!(offset_of!(Reply, lowest), 3);
    assert_eq!(offset_of!(Reply, count), 4);
}

#[test]
fn what_a_replay_ends_with_has_the_layout_of_the_c_interface() {
    assert_eq!(size_of::<Replayed>(), 24);
    assert_eq!(align_of::<Replayed>(), 8);
    assert_eq!(offset_of!(Replayed, number), 0);
    assert_eq!(offset_of!(Replayed, lines), 4);
    assert_eq!(offset_of!(Replayed, place), 8);
    assert_eq!(offset_of!(Replayed, expected), 16);
}

#[test]
fn each_field_is_handed_on_as_itself() {
    let reply = Reply {
        number: 1,
        status: 2,
        preventers: 3,
        lowest: 4,
        count: 5,
    };
    let expected = reference::Reply {
        number: 1,
        status: 2,
        preventers: 3,
        lowest: 4,
        count: 5,
    };
    assert_eq!(reference::Reply::from(reply), expected);
    let replayed = Replayed {
        number: 1,
        lines: 2,
        place: 3,
        expected: 4,
    };
    let expected = reference::Replayed {
        number: 1,
        lines: 2,
        place: 3,
        expected: 4,
    };
    assert_eq!(reference::Replayed::from(replayed), expected);
}
