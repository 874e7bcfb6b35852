//! Tables at the corners of document 01. Row r starts at word 6 r of the rows.

use super::Area::{Due, Rows, Types};
use super::By::{self, Document, Hand, Ruling};
use super::{Area, TableCase};

const NET_A: &str = r#""T\t2\t3\t10\nD\t20\nW\t0\t4\t5\t1\nS\t1\t6\t7\t0\t8\t1000\n""#;
const STAR: &str = r#""D\t20\n" + repeat 255 "S\t0\t1\t1\t0\t1\t1\n""#;
const STAR_4: &str = r#"repeat 4 "T\t1\t1\t1\n" + "D\t20\n" + repeat 255 "S\t0\t1\t1\t0\t1\t1\n""#;
const SITES_64: &str = r#""D\t20\n" + repeat 64 "S\t0\t1\t1\t1\t1\t1\n" + "S\t0\t1\t1\t0\t1\t1\n""#;

type Set = &'static [(Area, usize, i64)];

const fn case(
    name: &'static str,
    recipe: &'static str,
    set: Set,
    expected: &'static str,
    by: By,
) -> TableCase {
    TableCase { name, recipe, set, counts: None, lengths: None, expected, by }
}

const fn counted(
    name: &'static str,
    recipe: &'static str,
    set: Set,
    counts: (usize, usize),
    expected: &'static str,
    by: By,
) -> TableCase {
    TableCase { name, recipe, set, counts: Some(counts), lengths: None, expected, by }
}

const fn lent(
    name: &'static str,
    set: Set,
    lengths: [usize; 3],
    expected: &'static str,
    by: By,
) -> TableCase {
    TableCase { name, recipe: NET_A, set, counts: None, lengths: Some(lengths), expected, by }
}

pub const ALL: &[&[TableCase]] = &[FORM, RANGES, COUNTS, PARENTS, LENGTHS];

/// A missing or misplaced driver, a kind there is not, a field the line would lack.
#[rustfmt::skip]
pub const FORM: &[TableCase] = &[
    case("tables-net-a", NET_A, &[], "accepted", Document),
    case("tables-past-entries-unread", NET_A, &[(Types, 3, 4294967295), (Rows, 18, 9), (Due, 3, -1)], "accepted", Hand),
    case("driver-parent", NET_A, &[(Rows, 1, 1)], "refused 1 2", Document),
    case("driver-capacitance", NET_A, &[(Rows, 3, 1)], "refused 1 2", Document),
    case("driver-site", NET_A, &[(Rows, 4, 1)], "refused 1 2", Document),
    case("driver-pin", NET_A, &[(Rows, 5, 1)], "refused 1 2", Document),
    case("driver-due", NET_A, &[(Due, 0, 1)], "refused 1 2", Document),
    case("driver-due-minus", NET_A, &[(Due, 0, -1)], "refused 1 2", Document),
    case("driver-field-before-range", NET_A, &[(Rows, 2, 100001), (Rows, 5, 1)], "refused 1 2", Document),
    case("point-pin", NET_A, &[(Rows, 11, 1)], "refused 1 3", Document),
    case("point-due", NET_A, &[(Due, 1, -5)], "refused 1 3", Document),
    case("point-pin-before-range", NET_A, &[(Rows, 8, 100001), (Rows, 11, 4294967295)], "refused 1 3", Document),
    case("first-row-point", NET_A, &[(Rows, 0, 1)], "refused 1 2", Ruling),
    case("first-row-sink", NET_A, &[(Rows, 0, 2)], "refused 1 2", Ruling),
    case("first-row-sink-out-of-range", NET_A, &[(Rows, 0, 2), (Rows, 2, 100001)], "refused 1 2", Ruling),
    case("driver-not-first", NET_A, &[(Rows, 6, 0), (Rows, 9, 0), (Rows, 10, 0)], "refused 1 3", Ruling),
    case("driver-not-first-fields", NET_A, &[(Rows, 6, 0)], "refused 1 3", Ruling),
    case("driver-last", NET_A, &[(Rows, 12, 0), (Rows, 13, 0), (Rows, 15, 0), (Rows, 17, 0), (Due, 2, 0)], "refused 1 4", Ruling),
    case("kind-3", NET_A, &[(Rows, 12, 3)], "refused 1 4", Ruling),
    case("kind-3-first-row", NET_A, &[(Rows, 0, 3)], "refused 1 2", Ruling),
    case("kind-greatest", NET_A, &[(Rows, 6, 4294967295)], "refused 1 3", Ruling),
    case("sink-all-zero-fields", NET_A, &[(Rows, 13, 0), (Rows, 14, 0), (Rows, 15, 0), (Rows, 17, 0), (Due, 2, 0)], "refused 5 3", Hand),
];

#[rustfmt::skip]
pub const RANGES: &[TableCase] = &[
    case("tables-input-100000", NET_A, &[(Types, 0, 100000)], "accepted", Hand),
    case("tables-input-100001", NET_A, &[(Types, 0, 100001)], "refused 2 1", Hand),
    case("tables-type-resistance-100001", NET_A, &[(Types, 1, 100001)], "refused 2 1", Hand),
    case("tables-own-delay-1000000000", NET_A, &[(Types, 2, 1000000000)], "accepted", Hand),
    case("tables-own-delay-1000000001", NET_A, &[(Types, 2, 1000000001)], "refused 2 1", Hand),
    case("tables-driver-100000", NET_A, &[(Rows, 2, 100000)], "accepted", Hand),
    case("tables-driver-100001", NET_A, &[(Rows, 2, 100001)], "refused 2 2", Hand),
    case("tables-wire-resistance-100001", NET_A, &[(Rows, 8, 100001)], "refused 2 3", Hand),
    case("tables-wire-capacitance-100001", NET_A, &[(Rows, 9, 100001)], "refused 2 3", Hand),
    case("tables-sink-limits", NET_A, &[(Rows, 14, 100000), (Rows, 15, 100000), (Rows, 17, 100000)], "accepted", Hand),
    case("tables-sink-resistance-100001", NET_A, &[(Rows, 14, 100001)], "refused 2 4", Hand),
    case("tables-pin-100001", NET_A, &[(Rows, 17, 100001)], "refused 2 4", Document),
    case("tables-pin-greatest", NET_A, &[(Rows, 17, 4294967295)], "refused 2 4", Hand),
    case("tables-site-2", NET_A, &[(Rows, 10, 2)], "refused 2 3", Document),
    case("tables-parent-255", NET_A, &[(Rows, 13, 255)], "refused 4 4", Ruling),
    case("tables-parent-256", NET_A, &[(Rows, 13, 256)], "refused 2 4", Document),
    case("tables-due-greatest", NET_A, &[(Due, 2, 1000000000000)], "accepted", Hand),
    case("tables-due-above", NET_A, &[(Due, 2, 1000000000001)], "refused 2 4", Hand),
    case("tables-due-least", NET_A, &[(Due, 2, -1000000000000)], "accepted", Hand),
    case("tables-due-below", NET_A, &[(Due, 2, -1000000000001)], "refused 2 4", Hand),
    case("tables-due-63-bits-least", NET_A, &[(Due, 2, i64::MIN)], "refused 2 4", Hand),
    case("tables-due-63-bits-greatest", NET_A, &[(Due, 2, i64::MAX)], "refused 2 4", Hand),
];

/// Counts of none, of the room, and past it.
#[rustfmt::skip]
pub const COUNTS: &[TableCase] = &[
    counted("no-row", NET_A, &[], (1, 0), "refused 1 2", Ruling),
    counted("no-row-no-type", NET_A, &[], (0, 0), "refused 1 1", Ruling),
    counted("no-row-types-4", STAR_4, &[], (4, 0), "refused 1 5", Ruling),
    counted("no-row-types-5", STAR_4, &[], (5, 0), "refused 3 5", Ruling),
    counted("one-row", NET_A, &[], (1, 1), "refused 5 2", Hand),
    counted("two-rows-cut", NET_A, &[], (1, 2), "refused 5 3", Hand),
    counted("no-type-counted", NET_A, &[], (0, 3), "accepted", Hand),
    counted("no-type-counted-unread", NET_A, &[(Types, 0, 100001)], (0, 3), "accepted", Hand),
    counted("zero-types-counted-4", NET_A, &[], (4, 3), "accepted", Hand),
    counted("zero-row-counted", NET_A, &[], (1, 4), "refused 1 5", Ruling),
    counted("tables-types-5", STAR_4, &[], (5, 256), "refused 3 5", Ruling),
    counted("tables-types-5-fourth-bad", STAR_4, &[(Types, 9, 100001)], (5, 256), "refused 2 4", Ruling),
    counted("tables-types-5-row-bad", STAR_4, &[(Rows, 0, 7)], (5, 256), "refused 3 5", Ruling),
    counted("types-greatest-count", STAR_4, &[], (4294967295, 256), "refused 3 5", Ruling),
    counted("tables-rows-256", STAR, &[], (0, 256), "accepted", Hand),
    counted("tables-rows-257", STAR, &[], (0, 257), "refused 3 257", Ruling),
    counted("tables-rows-257-types-4", STAR_4, &[], (4, 257), "refused 3 261", Ruling),
    counted("tables-rows-257-last-bad", STAR, &[(Rows, 1531, 300)], (0, 257), "refused 2 256", Ruling),
    counted("rows-greatest-count", STAR, &[], (0, 4294967295), "refused 3 257", Ruling),
    counted("both-past-room", STAR_4, &[], (5, 257), "refused 3 5", Ruling),
    case("tables-sites-64", SITES_64, &[], "accepted", Document),
    case("tables-sites-65", SITES_64, &[(Rows, 394, 1)], "refused 3 66", Document),
    case("tables-sites-65-bad-parent", SITES_64, &[(Rows, 394, 1), (Rows, 391, 65)], "refused 3 66", Document),
    case("tables-sites-65-out-of-range", SITES_64, &[(Rows, 394, 1), (Rows, 392, 100001)], "refused 2 66", Document),
];

#[rustfmt::skip]
pub const PARENTS: &[TableCase] = &[
    case("tables-parent-itself", NET_A, &[(Rows, 13, 2)], "refused 4 4", Document),
    case("tables-parent-itself-point", NET_A, &[(Rows, 7, 1)], "refused 4 3", Document),
    case("tables-parent-later", NET_A, &[(Rows, 7, 2)], "refused 4 3", Document),
    case("tables-parent-sink", STAR, &[(Rows, 13, 1)], "refused 4 3", Document),
    case("tables-parent-and-range", NET_A, &[(Rows, 13, 9), (Rows, 17, 100001)], "refused 2 4", Document),
    case("tables-parent-and-kind", NET_A, &[(Rows, 13, 9), (Rows, 12, 3)], "refused 1 4", Document),
    case("tables-point-alone", NET_A, &[(Rows, 13, 0)], "refused 5 3", Document),
];

/// Net A lent at other lengths.
#[rustfmt::skip]
pub const LENGTHS: &[TableCase] = &[
    lent("types-11", &[], [11, 1536, 256], "refused 7 0", Document),
    lent("types-0", &[], [0, 1536, 256], "refused 7 0", Document),
    lent("rows-1535", &[], [12, 1535, 256], "refused 7 0", Document),
    lent("rows-0", &[], [12, 0, 256], "refused 7 0", Document),
    lent("due-255", &[], [12, 1536, 255], "refused 7 0", Document),
    lent("due-0", &[], [12, 1536, 0], "refused 7 0", Document),
    lent("all-0", &[], [0, 0, 0], "refused 7 0", Document),
    lent("due-255-and-bad-kind", &[(Rows, 0, 9)], [12, 1536, 255], "refused 7 0", Document),
    lent("areas-at-room", &[], [12, 1536, 256], "accepted", Document),
    lent("areas-longer", &[], [13, 1537, 257], "accepted", Document),
    lent("areas-much-longer", &[], [100, 3000, 1000], "accepted", Document),
    TableCase { name: "areas-longer-rows-257", recipe: STAR, set: &[], counts: Some((0, 257)), lengths: Some([15, 1542, 257]), expected: "refused 3 257", by: Ruling },
    TableCase { name: "areas-longer-types-5", recipe: STAR_4, set: &[], counts: Some((5, 256)), lengths: Some([15, 1542, 257]), expected: "refused 3 5", by: Ruling },
];
