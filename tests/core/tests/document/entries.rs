//! Every entry answers any block in the same way.

use reference::Entry;

use crate::fixture::*;

fn enter(entry: Entry, library: &mut Library, block: &[u8]) -> Answered {
    library.entered(entry, (1, block, &[]), 64)
}

#[test]
fn a_move_is_made_whatever_the_entry_is_called() {
    for entry in Entry::ALL {
        let mut library = Library::small();
        let answered = enter(entry, &mut library, &move_block(0x1000, 0x0100));
        assert_eq!(answered.reply, GOOD, "{entry:?}");
        assert_eq!(answered.returned(), [], "{entry:?}");
        let drive = [0, 1, 0x10, 0x00, 0, 0, 0, 0];
        assert_eq!(library.element(AT_0100), drive, "{entry:?}");
    }
}

#[test]
fn mode_pages_are_returned_whatever_the_entry_is_called() {
    for entry in Entry::ALL {
        let mut library = Library::small();
        let answered = enter(entry, &mut library, &[0x1A, 0, 0x1E, 0, 255, 0]);
        assert_eq!(answered.reply, good(8), "{entry:?}");
        let expected = [0x07, 0, 0, 0, 0x1E, 0x02, 0x00, 0x00];
        assert_eq!(answered.returned(), expected, "{entry:?}");
        assert_eq!(library, Library::small(), "{entry:?}");
    }
}

#[test]
fn an_unknown_first_byte_is_told_whatever_the_entry_is_called() {
    for entry in Entry::ALL {
        let mut library = Library::small();
        let answered = enter(entry, &mut library, &[0x12, 0, 0, 0, 36, 0]);
        assert_eq!(answered.reply, CHECK_CONDITION, "{entry:?}");
        assert_eq!(library.host_record(1), [5, 0x20, 0x00, 0, 0], "{entry:?}");
    }
}
