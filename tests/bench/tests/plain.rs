//! The plain implementation answers what the reference answers: a faster wrong one would be no measure.

use bench::days::days;
use bench::plain::plain;
use bench::rows::rows;
use core_ffi::EmptySlices;
use differential::harness::{Limits, Subject};
use differential::scenarios;
use reference::Reference;

const CALLS: usize = 60_000;

#[test]
fn plain_c_agrees_over_generated_calls() {
    let [pointers, nulls] = [EmptySlices::Pointer, EmptySlices::Null].map(plain);
    let subjects = [&pointers, &nulls].map(|implementation| Subject {
        name: "plain",
        implementation,
    });
    let limits = Limits {
        calls: CALLS,
        stop_at_first_difference: false,
        trace: false,
    };
    let report = scenarios::run(&Reference::default(), &subjects, limits, 5);
    assert_eq!(report.shown, [""; 0]);
    assert_eq!(report.broken_off, [""; 0]);
    assert_eq!(report.tally.missing(), []);
    assert_eq!((report.calls, report.failed), (CALLS, 0));
}

#[test]
fn every_row_ends_good_on_core_and_plain_c() {
    for elements in [7, 8, 31, 32, 64, 512] {
        for row in rows(elements) {
            assert!(row.agrees(&plain(EmptySlices::Pointer)), "{}", row.name);
            assert!(
                row.agrees(&core_ffi::core(EmptySlices::Pointer)),
                "{}",
                row.name
            );
        }
    }
}

#[test]
fn every_log_ends_alike_on_core_and_plain_c() {
    for day in days() {
        for on in [plain, core_ffi::core].map(|on| on(EmptySlices::Pointer)) {
            assert!(day.agrees(&on, 20_000, 1_000), "{}", day.name);
        }
    }
}
