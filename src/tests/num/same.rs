// Made by `make package` of crates/tests_num/src/same.rt, which is proved: changes go there.

//! Facts in rows, with one assertion for all of them.

/// Asserts that in each row the value found is the one wanted; the message names the row.
pub fn all_same(rows: &[(&str, i64, i64)]) {
    for (what, found, wanted) in rows {
        assert!(*found == *wanted, "{what}: {found}, not {wanted}");
    }
}

/// Asserts that each row holds; the message names the first that does not.
pub fn all_hold(rows: &[(&str, bool)]) {
    for (what, holds) in rows {
        assert!(*holds, "{what}");
    }
}
