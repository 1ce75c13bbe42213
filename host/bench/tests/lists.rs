//! The lists of edits that are timed: all of them are made, and each edit changes something.

use bench::calls::Bench;
use calls::Change;

#[test]
fn lists_are_made() {
    for name in ["deep", "irregular"] {
        for count in [1, 16, 64, 256] {
            let before = Bench::named(name);
            let list = before.edits(count);
            assert_eq!(list.len(), count);
            assert_eq!(before.clone().edit(&list), Ok(()), "{name}, {count}");
            let mut after = before.clone();
            assert_eq!(after.edit(&list[..1]), Ok(()));
            assert_ne!(after.edits(1), before.edits(1), "{name}");
        }
    }
    // Inputs and tables in turn. There are 64 inputs, so the 129th edit is of input 0 again.
    let list = Bench::named("deep").edits(256);
    assert_eq!(
        (list[0], list[128]),
        (Change::input(0, 0), Change::input(0, 0))
    );
    let tables = list.iter().filter(|edit| edit.kind == 1);
    assert!(tables.map(|edit| edit.number).eq(0..128));
}
