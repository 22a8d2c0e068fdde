//! "Errors we have shipped", one test for each.

use crate::fixture::*;

#[test]
fn counts_are_not_cut_to_the_allocation() {
    for allocation in [8, 24, 32, 47, 100] {
        let mut library = Library::small();
        let block = [0xB8, 0, 0, 0, 0xFF, 0xFF, 0, 0, 0, allocation, 0, 0];
        let answered = library.command(1, &block);
        let header = [0x00, 0x01, 0x00, 0x07, 0x00, 0x00, 0x00, 0x90];
        assert_eq!(answered.returned()[..8], header, "{allocation}");
    }
}

#[test]
fn a_page_cut_after_one_descriptor_still_counts_all_of_its_bytes() {
    let mut library = Library::small();
    let block = [0xB8, 2, 0, 0, 0xFF, 0xFF, 0, 0, 0, 32, 0, 0];
    let answered = library.command(1, &block);
    assert_eq!(answered.reply, good(32));
    let page_header = [0x02, 0, 0, 0x10, 0, 0, 0, 0x40];
    assert_eq!(answered.returned()[8..16], page_header);
}

#[test]
fn a_swap_reads_the_source_before_writing_it() {
    let mut library = Library::small();
    let swap = exchange_block(0x1002, 0x1000, 0x1002);
    assert_eq!(library.command(1, &swap).reply, GOOD);
    assert_eq!(library.element(AT_1002), [0, 1, 0x10, 0x00, 0, 0, 0, 0]);
    assert_eq!(library.element(AT_1000), [0, 2, 0x10, 0x02, 0, 0, 0, 0]);
}

#[test]
fn a_failed_reserve_frees_nothing() {
    let mut library = Library::small();
    library.hold(AT_1001, 1, 7);
    library.hold(AT_1003, 2, 0);
    library.expect_conflict(1, &reserve_block(7, 1), &descriptor(1, 0x1003));
    assert_eq!(library.holder_and_id(AT_1001), [1, 7]);

    library.expect_check(
        1,
        &reserve_block(7, 1),
        &descriptor(1, 0x1004),
        [5, 0x21, 0x01],
    );
    assert_eq!(library.holder_and_id(AT_1001), [1, 7]);
}

#[test]
fn each_host_has_its_own_sense() {
    let mut library = Library::small();
    library.set_host_record(2, [5, 0x3B, 0x0D, 0, 0]);
    library.expect_check(3, &move_block(0x1001, 0x0100), &[], [5, 0x3B, 0x0E]);
    assert_eq!(library.host_record(1), [0; 5]);
    assert_eq!(library.host_record(2), [5, 0x3B, 0x0D, 0, 0]);
    assert_eq!(library.host_record(3), [5, 0x3B, 0x0E, 0, 0]);
}

#[test]
fn import_leaves_a_reset_attention_alone() {
    let mut library = Library::small();
    library.set_host_record(4, [0, 0, 0, 0x29, 0x00]);
    assert_eq!(library.import(0x0010, 3), GOOD);
    assert_eq!(library.host_record(4), [0, 0, 0, 0x29, 0x00]);
    for host in [1, 2, 3, 5, 6, 7, 8] {
        assert_eq!(
            library.host_record(host),
            [0, 0, 0, 0x28, 0x01],
            "host {host}"
        );
    }
}
