//! Texts at the corners of document 01. Net A is the base of most.

use super::By::{self, Document, Hand, Ruling};
use super::TextCase;

const fn case(
    name: &'static str,
    recipe: &'static str,
    expected: &'static str,
    by: By,
) -> TextCase {
    TextCase { name, recipe, lengths: None, expected, by }
}

const fn lent(
    name: &'static str,
    recipe: &'static str,
    lengths: [usize; 3],
    expected: &'static str,
    by: By,
) -> TextCase {
    TextCase { name, recipe, lengths: Some(lengths), expected, by }
}

pub const ALL: &[&[TextCase]] =
    &[WHOLE, FORM, NUMBERS, RANGES, ROOMS, PARENTS, BELOW, ORDER, LENGTHS];

/// Good texts, no text, texts too long.
#[rustfmt::skip]
pub const WHOLE: &[TextCase] = &[
    case("empty", r#""""#, "refused 1 1", Document),
    case("net-a", r#""T\t2\t3\t10\nD\t20\nW\t0\t4\t5\t1\nS\t1\t6\t7\t0\t8\t1000\n""#, "accepted 1 3", Document),
    case("net-b", r#""T\t2\t3\t10\nD\t20\nW\t0\t4\t5\t0\nS\t1\t6\t7\t1\t8\t1000\nS\t1\t0\t3\t1\t30\t950\n""#, "accepted 1 4", Document),
    case("least-net", r#""D\t20\nS\t0\t0\t0\t0\t8\t1000\n""#, "accepted 0 2", Document),
    case("least-bytes", r#""D\t0\nS\t0\t0\t0\t0\t0\t0\n""#, "accepted 0 2", Hand),
    case("text-32768-long-number", r#""D\t1" + repeat 32764 "0" + "\n""#, "refused 2 1", Ruling),
    case("text-32768-line-feeds", r#"repeat 32768 "\n""#, "refused 1 1", Ruling),
    case("text-32768-unended", r#"repeat 32768 "D""#, "refused 1 1", Ruling),
    case("text-32768-net-a-then-long-line", r#""T\t2\t3\t10\nD\t20\nW\t0\t4\t5\t1\nS\t1\t6\t7\t0\t8\t1000\nS\t1\t1" + repeat 32713 "0" + "\t0\t0\t0\t0\n""#, "refused 2 5", Ruling),
    case("text-32769-line-feeds", r#"repeat 32769 "\n""#, "refused 3 0", Document),
    case("text-32769-long-number", r#""D\t1" + repeat 32765 "0" + "\n""#, "refused 3 0", Document),
    case("text-32769-unended", r#"repeat 32769 "T""#, "refused 3 0", Document),
    case("text-32769-good-start", r#""D\t20\nS\t0\t0\t0\t0\t8\t1000\n" + repeat 32747 "\0""#, "refused 3 0", Document),
    case("text-40000", r#"repeat 40000 "\0""#, "refused 3 0", Document),
];

/// Lines and fields not of the form.
#[rustfmt::skip]
pub const FORM: &[TextCase] = &[
    case("line-feed-alone", r#""\n""#, "refused 1 1", Ruling),
    case("blank-first", r#""\nD\t20\nS\t0\t0\t0\t0\t8\t1000\n""#, "refused 1 1", Ruling),
    case("blank-between", r#""T\t2\t3\t10\n\nD\t20\nS\t0\t0\t0\t0\t8\t1000\n""#, "refused 1 2", Ruling),
    case("blank-last", r#""D\t20\nS\t0\t0\t0\t0\t8\t1000\n\n""#, "refused 1 3", Ruling),
    case("unended-last", r#""D\t20\nS\t0\t0\t0\t0\t8\t1000""#, "refused 1 2", Document),
    case("unended-only-driver", r#""D\t20""#, "refused 1 1", Document),
    case("unended-no-driver", r#""T\t2\t3\t10""#, "refused 1 1", Ruling),
    case("unended-second-type", r#""T\t2\t3\t10\nT\t2\t3\t10""#, "refused 1 2", Ruling),
    case("unended-out-of-range", r#""D\t20\nS\t0\t0\t0\t0\t100001\t0""#, "refused 1 2", Ruling),
    case("unended-fifth-type", r#"repeat 4 "T\t0\t0\t0\n" + "T\t0\t0\t0""#, "refused 1 5", Ruling),
    case("unended-bad-parent", r#""D\t20\nS\t9\t0\t0\t0\t1\t0""#, "refused 1 2", Ruling),
    case("unended-byte-after-good", r#""D\t20\nS\t0\t0\t0\t0\t8\t1000\nS""#, "refused 1 3", Hand),
    case("carriage-return-first-line", r#""T\t2\t3\t10\r\nD\t20\r\nS\t0\t0\t0\t0\t8\t1000\r\n""#, "refused 1 1", Ruling),
    case("carriage-return-last-line", r#""D\t20\nS\t0\t0\t0\t0\t8\t1000\r\n""#, "refused 1 2", Ruling),
    case("carriage-return-for-line-feed", r#""D\t20\rS\t0\t0\t0\t0\t8\t1000\r""#, "refused 1 1", Ruling),
    case("carriage-return-in-driver", r#""D\t20\r\nS\t0\t0\t0\t0\t8\t1000\n""#, "refused 1 1", Ruling),
    case("nul-in-number", r#""D\t2\0\nS\t0\t0\t0\t0\t8\t1000\n""#, "refused 1 1", Ruling),
    case("nul-line", r#""D\t20\n\0\nS\t0\t0\t0\t0\t8\t1000\n""#, "refused 1 2", Ruling),
    case("nul-at-end", r#""D\t20\nS\t0\t0\t0\t0\t8\t1000\n\0""#, "refused 1 3", Ruling),
    case("high-byte-in-number", r#""D\t2\xb2\nS\t0\t0\t0\t0\t8\t1000\n""#, "refused 1 1", Ruling),
    case("high-byte-for-letter", r#""\xc4\t20\nS\t0\t0\t0\t0\t8\t1000\n""#, "refused 1 1", Ruling),
    case("byte-order-mark", r#""\xef\xbb\xbfD\t20\nS\t0\t0\t0\t0\t8\t1000\n""#, "refused 1 1", Ruling),
    case("byte-255", r#""D\t20\nS\t0\t0\t0\t0\t8\t1000\xff\n""#, "refused 1 2", Ruling),
    case("byte-after-digits", r#""D\t20:\nS\t0\t0\t0\t0\t8\t1000\n""#, "refused 1 1", Hand),
    case("byte-before-digits", r#""D\t/20\nS\t0\t0\t0\t0\t8\t1000\n""#, "refused 1 1", Hand),
    case("space-for-tab", r#""D 20\nS\t0\t0\t0\t0\t8\t1000\n""#, "refused 1 1", Ruling),
    case("space-after-number", r#""D\t20 \nS\t0\t0\t0\t0\t8\t1000\n""#, "refused 1 1", Hand),
    case("two-tabs", r#""D\t\t20\nS\t0\t0\t0\t0\t8\t1000\n""#, "refused 1 1", Ruling),
    case("tab-at-start", r#""\tD\t20\nS\t0\t0\t0\t0\t8\t1000\n""#, "refused 1 1", Ruling),
    case("tab-at-end", r#""D\t20\t\nS\t0\t0\t0\t0\t8\t1000\n""#, "refused 1 1", Ruling),
    case("tab-alone", r#""\t\n""#, "refused 1 1", Ruling),
    case("letter-alone", r#""D\nS\t0\t0\t0\t0\t8\t1000\n""#, "refused 1 1", Hand),
    case("letter-lower", r#""d\t20\nS\t0\t0\t0\t0\t8\t1000\n""#, "refused 1 1", Hand),
    case("letter-double", r#""DD\t20\nS\t0\t0\t0\t0\t8\t1000\n""#, "refused 1 1", Hand),
    case("letter-joined", r#""D20\nS\t0\t0\t0\t0\t8\t1000\n""#, "refused 1 1", Hand),
    case("letter-other", r#""D\t20\nM\t1\t1\n""#, "refused 1 2", Hand),
    case("comment-line", r##""# net\nD\t20\nS\t0\t0\t0\t0\t8\t1000\n""##, "refused 1 1", Hand),
    case("type-two-fields", r#""T\t2\t3\nD\t20\nS\t0\t0\t0\t0\t8\t1000\n""#, "refused 1 1", Hand),
    case("type-four-fields", r#""T\t2\t3\t10\t4\nD\t20\nS\t0\t0\t0\t0\t8\t1000\n""#, "refused 1 1", Hand),
    case("driver-two-fields", r#""D\t20\t0\nS\t0\t0\t0\t0\t8\t1000\n""#, "refused 1 1", Hand),
    case("point-three-fields", r#""D\t20\nW\t0\t4\t5\nS\t1\t6\t7\t0\t8\t1000\n""#, "refused 1 2", Hand),
    case("point-with-pin", r#""D\t20\nW\t0\t4\t5\t1\t8\nS\t1\t6\t7\t0\t8\t1000\n""#, "refused 1 2", Hand),
    case("point-with-sink-fields", r#""D\t20\nW\t0\t4\t5\t1\t8\t1000\n""#, "refused 1 2", Hand),
    case("sink-five-fields", r#""D\t20\nS\t0\t0\t0\t0\t8\n""#, "refused 1 2", Hand),
    case("sink-point-fields", r#""D\t20\nS\t0\t0\t0\t0\n""#, "refused 1 2", Hand),
    case("sink-seven-fields", r#""D\t20\nS\t0\t0\t0\t0\t8\t1000\t0\n""#, "refused 1 2", Hand),
];

/// How a number may be written.
#[rustfmt::skip]
pub const NUMBERS: &[TextCase] = &[
    case("leading-zeros", r#""D\t007\nS\t0\t0\t0\t0\t8\t1000\n""#, "refused 1 1", Document),
    case("two-zeros", r#""D\t00\nS\t0\t0\t0\t0\t8\t1000\n""#, "refused 1 1", Document),
    case("plus", r#""D\t+5\nS\t0\t0\t0\t0\t8\t1000\n""#, "refused 1 1", Document),
    case("plus-in-due", r#""D\t5\nS\t0\t0\t0\t0\t8\t+1000\n""#, "refused 1 2", Document),
    case("minus-resistance", r#""D\t-5\nS\t0\t0\t0\t0\t8\t1000\n""#, "refused 1 1", Document),
    case("minus-parent", r#""D\t5\nS\t-1\t0\t0\t0\t8\t1000\n""#, "refused 1 2", Document),
    case("minus-site", r#""D\t5\nS\t0\t0\t0\t-1\t8\t1000\n""#, "refused 1 2", Document),
    case("minus-pin", r#""D\t5\nS\t0\t0\t0\t0\t-8\t1000\n""#, "refused 1 2", Document),
    case("minus-own-delay", r#""T\t2\t3\t-10\nD\t5\nS\t0\t0\t0\t0\t8\t1000\n""#, "refused 1 1", Document),
    case("minus-due", r#""D\t5\nS\t0\t0\t0\t0\t8\t-1000\n""#, "accepted 0 2", Document),
    case("minus-zero-due", r#""D\t5\nS\t0\t0\t0\t0\t8\t-0\n""#, "refused 1 2", Document),
    case("minus-leading-zero-due", r#""D\t5\nS\t0\t0\t0\t0\t8\t-05\n""#, "refused 1 2", Ruling),
    case("minus-alone-due", r#""D\t5\nS\t0\t0\t0\t0\t8\t-\n""#, "refused 1 2", Ruling),
    case("minus-twice-due", r#""D\t5\nS\t0\t0\t0\t0\t8\t--5\n""#, "refused 1 2", Hand),
    case("minus-behind-due", r#""D\t5\nS\t0\t0\t0\t0\t8\t5-\n""#, "refused 1 2", Hand),
    case("leading-zero-due", r#""D\t5\nS\t0\t0\t0\t0\t8\t05\n""#, "refused 1 2", Document),
    case("zero-due", r#""D\t5\nS\t0\t0\t0\t0\t8\t0\n""#, "accepted 0 2", Hand),
    case("empty-field", r#""D\t\nS\t0\t0\t0\t0\t8\t1000\n""#, "refused 1 1", Ruling),
    case("empty-due", r#""D\t5\nS\t0\t0\t0\t0\t8\t\n""#, "refused 1 2", Ruling),
    case("hexadecimal", r#""D\t0x5\nS\t0\t0\t0\t0\t8\t1000\n""#, "refused 1 1", Hand),
    case("exponent", r#""D\t1e3\nS\t0\t0\t0\t0\t8\t1000\n""#, "refused 1 1", Hand),
    case("decimal-point", r#""D\t5.0\nS\t0\t0\t0\t0\t8\t1000\n""#, "refused 1 1", Hand),
    case("digits-40", r#""D\t1" + repeat 39 "0" + "\nS\t0\t0\t0\t0\t8\t1000\n""#, "refused 2 1", Ruling),
    case("digits-40-parent", r#""D\t5\nS\t1" + repeat 39 "0" + "\t0\t0\t0\t8\t1000\n""#, "refused 2 2", Ruling),
    case("digits-40-site", r#""D\t5\nS\t0\t0\t0\t1" + repeat 39 "0" + "\t8\t1000\n""#, "refused 2 2", Ruling),
    case("digits-40-due", r#""D\t5\nS\t0\t0\t0\t0\t8\t" + repeat 40 "9" + "\n""#, "refused 2 2", Ruling),
    case("digits-40-minus-due", r#""D\t5\nS\t0\t0\t0\t0\t8\t-" + repeat 40 "9" + "\n""#, "refused 2 2", Ruling),
    case("digits-40-leading-zero", r#""D\t" + repeat 40 "0" + "\nS\t0\t0\t0\t0\t8\t1000\n""#, "refused 1 1", Ruling),
    case("digits-40-letter-last", r#""D\t" + repeat 39 "1" + "x\nS\t0\t0\t0\t0\t8\t1000\n""#, "refused 1 1", Ruling),
    case("digits-30000", r#""D\t" + repeat 30000 "7" + "\nS\t0\t0\t0\t0\t8\t1000\n""#, "refused 2 1", Ruling),
    case("digits-30000-minus-due", r#""D\t5\nS\t0\t0\t0\t0\t8\t-" + repeat 30000 "7" + "\n""#, "refused 2 2", Ruling),
    case("digits-30000-letter-last", r#""D\t" + repeat 30000 "7" + "x\nS\t0\t0\t0\t0\t8\t1000\n""#, "refused 1 1", Ruling),
    case("wraps-32-bits-to-5", r#""D\t4294967301\nS\t0\t0\t0\t0\t8\t1000\n""#, "refused 2 1", Hand),
    case("wraps-64-bits-to-5", r#""D\t18446744073709551621\nS\t0\t0\t0\t0\t8\t1000\n""#, "refused 2 1", Hand),
    case("wraps-64-bits-due-to-0", r#""D\t5\nS\t0\t0\t0\t0\t8\t18446744073709551616\n""#, "refused 2 2", Hand),
    case("wraps-32-bits-parent-to-0", r#""D\t5\nS\t4294967296\t0\t0\t0\t8\t1000\n""#, "refused 2 2", Hand),
    case("due-63-bits", r#""D\t5\nS\t0\t0\t0\t0\t8\t-9223372036854775808\n""#, "refused 2 2", Hand),
];

/// The ends of every range.
#[rustfmt::skip]
pub const RANGES: &[TextCase] = &[
    case("pin-100000", r#""D\t20\nS\t0\t0\t0\t0\t100000\t1000\n""#, "accepted 0 2", Document),
    case("pin-100001", r#""D\t20\nS\t0\t0\t0\t0\t100001\t1000\n""#, "refused 2 2", Document),
    case("driver-100000", r#""D\t100000\nS\t0\t0\t0\t0\t8\t1000\n""#, "accepted 0 2", Hand),
    case("driver-100001", r#""D\t100001\nS\t0\t0\t0\t0\t8\t1000\n""#, "refused 2 1", Hand),
    case("wire-resistance-100000", r#""D\t20\nS\t0\t100000\t0\t0\t8\t1000\n""#, "accepted 0 2", Hand),
    case("wire-resistance-100001", r#""D\t20\nS\t0\t100001\t0\t0\t8\t1000\n""#, "refused 2 2", Hand),
    case("wire-capacitance-100000", r#""D\t20\nS\t0\t0\t100000\t0\t8\t1000\n""#, "accepted 0 2", Hand),
    case("wire-capacitance-100001", r#""D\t20\nS\t0\t0\t100001\t0\t8\t1000\n""#, "refused 2 2", Hand),
    case("point-resistance-100001", r#""D\t20\nW\t0\t100001\t5\t1\nS\t1\t6\t7\t0\t8\t1000\n""#, "refused 2 2", Hand),
    case("point-capacitance-100001", r#""D\t20\nW\t0\t4\t100001\t1\nS\t1\t6\t7\t0\t8\t1000\n""#, "refused 2 2", Hand),
    case("input-100000", r#""T\t100000\t0\t0\nD\t20\nS\t0\t0\t0\t0\t8\t1000\n""#, "accepted 1 2", Hand),
    case("input-100001", r#""T\t100001\t0\t0\nD\t20\nS\t0\t0\t0\t0\t8\t1000\n""#, "refused 2 1", Hand),
    case("type-resistance-100000", r#""T\t0\t100000\t0\nD\t20\nS\t0\t0\t0\t0\t8\t1000\n""#, "accepted 1 2", Hand),
    case("type-resistance-100001", r#""T\t0\t100001\t0\nD\t20\nS\t0\t0\t0\t0\t8\t1000\n""#, "refused 2 1", Hand),
    case("own-delay-1000000000", r#""T\t0\t0\t1000000000\nD\t20\nS\t0\t0\t0\t0\t8\t1000\n""#, "accepted 1 2", Hand),
    case("own-delay-1000000001", r#""T\t0\t0\t1000000001\nD\t20\nS\t0\t0\t0\t0\t8\t1000\n""#, "refused 2 1", Hand),
    case("due-greatest", r#""D\t20\nS\t0\t0\t0\t0\t8\t1000000000000\n""#, "accepted 0 2", Hand),
    case("due-above", r#""D\t20\nS\t0\t0\t0\t0\t8\t1000000000001\n""#, "refused 2 2", Hand),
    case("due-least", r#""D\t20\nS\t0\t0\t0\t0\t8\t-1000000000000\n""#, "accepted 0 2", Hand),
    case("due-below", r#""D\t20\nS\t0\t0\t0\t0\t8\t-1000000000001\n""#, "refused 2 2", Hand),
    case("site-1", r#""D\t20\nS\t0\t0\t0\t1\t8\t1000\n""#, "accepted 0 2", Hand),
    case("site-2", r#""D\t20\nS\t0\t0\t0\t2\t8\t1000\n""#, "refused 2 2", Document),
    case("site-2-point", r#""D\t20\nW\t0\t4\t5\t2\nS\t1\t6\t7\t0\t8\t1000\n""#, "refused 2 2", Document),
];

/// Types, rows and sites past their room.
#[rustfmt::skip]
pub const ROOMS: &[TextCase] = &[
    case("types-4", r#"repeat 4 "T\t1\t1\t1\n" + "D\t20\nS\t0\t0\t0\t0\t8\t1000\n""#, "accepted 4 2", Document),
    case("types-5", r#"repeat 5 "T\t1\t1\t1\n" + "D\t20\nS\t0\t0\t0\t0\t8\t1000\n""#, "refused 3 5", Document),
    case("types-5-out-of-range", r#"repeat 4 "T\t1\t1\t1\n" + "T\t1\t100001\t1\nD\t20\nS\t0\t0\t0\t0\t8\t1000\n""#, "refused 2 5", Document),
    case("types-5-malformed", r#"repeat 4 "T\t1\t1\t1\n" + "T\t1\t1\nD\t20\nS\t0\t0\t0\t0\t8\t1000\n""#, "refused 1 5", Document),
    case("types-5-no-driver", r#"repeat 5 "T\t1\t1\t1\n""#, "refused 3 5", Hand),
    case("types-4-no-driver", r#"repeat 4 "T\t1\t1\t1\n""#, "refused 1 5", Document),
    case("rows-256", r#""D\t20\n" + repeat 255 "S\t0\t1\t1\t0\t1\t1\n""#, "accepted 0 256", Document),
    case("rows-257", r#""D\t20\n" + repeat 256 "S\t0\t1\t1\t0\t1\t1\n""#, "refused 3 257", Document),
    case("rows-257-types-4", r#"repeat 4 "T\t1\t1\t1\n" + "D\t20\n" + repeat 256 "S\t0\t1\t1\t0\t1\t1\n""#, "refused 3 261", Document),
    case("rows-257-out-of-range", r#""D\t20\n" + repeat 255 "S\t0\t1\t1\t0\t1\t1\n" + "S\t0\t1\t1\t0\t100001\t1\n""#, "refused 2 257", Document),
    case("rows-257-parent-256", r#""D\t20\n" + repeat 255 "S\t0\t1\t1\t0\t1\t1\n" + "S\t256\t1\t1\t0\t1\t1\n""#, "refused 2 257", Document),
    case("rows-257-parent-255", r#""D\t20\n" + repeat 255 "S\t0\t1\t1\t0\t1\t1\n" + "S\t255\t1\t1\t0\t1\t1\n""#, "refused 3 257", Document),
    case("rows-257-malformed", r#""D\t20\n" + repeat 255 "S\t0\t1\t1\t0\t1\t1\n" + "S\t0\t1\t1\t0\t1\n""#, "refused 1 257", Document),
    case("rows-256-then-driver", r#""D\t20\n" + repeat 255 "S\t0\t1\t1\t0\t1\t1\n" + "D\t20\n""#, "refused 1 257", Document),
    case("rows-257-points", r#""D\t20\n" + each 1 256 "W\t{i-1}\t1\t1\t0\n""#, "refused 3 257", Document),
    case("rows-256-chain", r#""D\t20\n" + each 1 254 "W\t{i-1}\t1\t1\t0\n" + "S\t254\t1\t1\t0\t1\t1\n""#, "accepted 0 256", Hand),
    case("sites-64", r#""D\t20\n" + repeat 64 "S\t0\t1\t1\t1\t1\t1\n""#, "accepted 0 65", Document),
    case("sites-64-then-none", r#""D\t20\n" + repeat 64 "S\t0\t1\t1\t1\t1\t1\n" + "S\t0\t1\t1\t0\t1\t1\n""#, "accepted 0 66", Hand),
    case("sites-65", r#""D\t20\n" + repeat 65 "S\t0\t1\t1\t1\t1\t1\n""#, "refused 3 66", Document),
    case("sites-65-out-of-range", r#""D\t20\n" + repeat 64 "S\t0\t1\t1\t1\t1\t1\n" + "S\t0\t1\t100001\t1\t1\t1\n""#, "refused 2 66", Document),
    case("sites-65-bad-parent", r#""D\t20\n" + repeat 64 "S\t0\t1\t1\t1\t1\t1\n" + "S\t66\t1\t1\t1\t1\t1\n""#, "refused 3 66", Document),
    case("sites-65-point", r#""D\t20\n" + each 1 65 "W\t{i-1}\t1\t1\t1\n" + "S\t65\t1\t1\t1\t1\t1\n""#, "refused 3 66", Document),
    case("largest", r#"repeat 4 "T\t100000\t100000\t1000000000\n" + "D\t100000\n" + repeat 64 "S\t0\t100000\t100000\t1\t100000\t-1000000000000\n" + repeat 191 "S\t0\t100000\t100000\t0\t100000\t-1000000000000\n""#, "accepted 4 256", Hand),
];

/// Which row a parent field may name.
#[rustfmt::skip]
pub const PARENTS: &[TextCase] = &[
    case("parent-itself", r#""D\t20\nS\t1\t0\t0\t0\t8\t1000\n""#, "refused 4 2", Document),
    case("parent-itself-point", r#""D\t20\nW\t1\t0\t0\t0\nS\t1\t0\t0\t0\t8\t1000\n""#, "refused 4 2", Document),
    case("parent-later", r#""D\t20\nS\t2\t0\t0\t0\t8\t1000\nW\t0\t0\t0\t0\n""#, "refused 4 2", Document),
    case("parent-beyond-last", r#""D\t20\nW\t0\t0\t0\t0\nS\t3\t0\t0\t0\t8\t1000\n""#, "refused 4 3", Document),
    case("parent-sink", r#""D\t20\nS\t0\t0\t0\t0\t8\t1000\nS\t1\t0\t0\t0\t8\t1000\n""#, "refused 4 3", Document),
    case("parent-sink-point", r#""D\t20\nS\t0\t0\t0\t0\t8\t1000\nW\t1\t0\t0\t0\n""#, "refused 4 3", Document),
    case("parent-254", r#""D\t20\n" + repeat 253 "S\t0\t1\t1\t0\t1\t1\n" + "W\t0\t1\t1\t0\nS\t254\t1\t1\t0\t1\t1\n""#, "accepted 0 256", Hand),
    case("parent-255", r#""D\t20\nS\t255\t0\t0\t0\t8\t1000\n""#, "refused 4 2", Ruling),
    case("parent-255-at-row-255", r#""D\t20\n" + repeat 254 "S\t0\t1\t1\t0\t1\t1\n" + "S\t255\t1\t1\t0\t1\t1\n""#, "refused 4 256", Ruling),
    case("parent-256", r#""D\t20\nS\t256\t0\t0\t0\t8\t1000\n""#, "refused 2 2", Document),
    case("parent-300-and-capacitance", r#""D\t20\nS\t300\t0\t100001\t0\t8\t1000\n""#, "refused 2 2", Document),
    case("parent-late-and-capacitance", r#""D\t20\nS\t7\t0\t100001\t0\t8\t1000\n""#, "refused 2 2", Document),
    case("parent-late-and-malformed", r#""D\t20\nS\t7\t0\t0\t0\t8\t01\n""#, "refused 1 2", Document),
    case("parent-bad-before-later-1", r#""D\t20\nS\t7\t0\t0\t0\t8\t1\n\n""#, "refused 4 2", Document),
];

/// The driver or a point with nothing below.
#[rustfmt::skip]
pub const BELOW: &[TextCase] = &[
    case("driver-alone", r#""D\t5\n""#, "refused 5 1", Document),
    case("driver-alone-types", r#""T\t2\t3\t10\nT\t2\t3\t10\nD\t5\n""#, "refused 5 3", Hand),
    case("point-alone", r#""D\t5\nW\t0\t0\t0\t0\n""#, "refused 5 2", Document),
    case("point-alone-types", r#""T\t2\t3\t10\nD\t5\nW\t0\t0\t0\t0\n""#, "refused 5 3", Hand),
    case("points-alone-first", r#""D\t5\nW\t0\t0\t0\t0\nW\t0\t0\t0\t0\nS\t0\t0\t0\t0\t0\t0\n""#, "refused 5 2", Document),
    case("points-alone-second", r#""D\t5\nW\t0\t0\t0\t0\nW\t0\t0\t0\t0\nS\t1\t0\t0\t0\t0\t0\n""#, "refused 5 3", Document),
    case("point-alone-last", r#""D\t5\nS\t0\t0\t0\t0\t0\t0\nW\t0\t0\t0\t0\n""#, "refused 5 3", Hand),
    case("point-alone-before-later-4", r#""D\t5\nW\t0\t0\t0\t0\nS\t9\t0\t0\t0\t0\t0\n""#, "refused 4 3", Document),
    case("points-alone-255", r#""D\t5\n" + each 1 255 "W\t{i-1}\t0\t0\t0\n""#, "refused 5 256", Hand),
];

/// The order of lines, and of refusals within and between lines.
#[rustfmt::skip]
pub const ORDER: &[TextCase] = &[
    case("no-driver", r#""T\t2\t3\t10\n""#, "refused 1 2", Document),
    case("point-before-driver", r#""W\t0\t4\t5\t1\nD\t20\nS\t1\t6\t7\t0\t8\t1000\n""#, "refused 1 1", Document),
    case("sink-before-driver", r#""T\t2\t3\t10\nS\t0\t0\t0\t0\t8\t1000\nD\t20\n""#, "refused 1 2", Document),
    case("sink-before-driver-out-of-range", r#""S\t0\t100001\t0\t0\t8\t1000\nD\t20\n""#, "refused 1 1", Ruling),
    case("sink-no-driver-bad-parent", r#""S\t300\t0\t0\t0\t8\t1000\n""#, "refused 1 1", Ruling),
    case("type-after-driver", r#""D\t20\nT\t2\t3\t10\nS\t0\t0\t0\t0\t8\t1000\n""#, "refused 1 2", Document),
    case("type-after-driver-out-of-range", r#""D\t20\nT\t100001\t3\t10\nS\t0\t0\t0\t0\t8\t1000\n""#, "refused 1 2", Ruling),
    case("type-after-row", r#""D\t20\nS\t0\t0\t0\t0\t8\t1000\nT\t2\t3\t10\n""#, "refused 1 3", Document),
    case("type-fifth-after-driver", r#"repeat 4 "T\t1\t1\t1\n" + "D\t20\nT\t1\t1\t1\nS\t0\t0\t0\t0\t8\t1000\n""#, "refused 1 6", Ruling),
    case("driver-twice", r#""D\t20\nD\t20\nS\t0\t0\t0\t0\t8\t1000\n""#, "refused 1 2", Document),
    case("driver-twice-out-of-range", r#""D\t20\nD\t100001\nS\t0\t0\t0\t0\t8\t1000\n""#, "refused 1 2", Ruling),
    case("driver-after-rows", r#""D\t20\nS\t0\t0\t0\t0\t8\t1000\nD\t20\n""#, "refused 1 3", Document),
    case("out-of-range-then-malformed-field", r#""D\t20\nS\t0\t100001\t0\t0\t8\tx\n""#, "refused 1 2", Ruling),
    case("out-of-range-then-malformed-line", r#""D\t100001\nx\n""#, "refused 2 1", Document),
    case("out-of-range-then-no-driver", r#""T\t100001\t1\t1\n""#, "refused 2 1", Document),
    case("fifth-type-then-malformed-line", r#"repeat 5 "T\t1\t1\t1\n" + "x\n""#, "refused 3 5", Document),
    case("driver-out-of-range-alone", r#""D\t100001\n""#, "refused 2 1", Document),
];

/// Areas lent to be filled: 7 comes before everything else.
#[rustfmt::skip]
pub const LENGTHS: &[TextCase] = &[
    lent("read-types-11", r#""D\t20\nS\t0\t0\t0\t0\t8\t1000\n""#, [11, 1536, 256], "refused 7 0", Document),
    lent("read-rows-1535", r#""D\t20\nS\t0\t0\t0\t0\t8\t1000\n""#, [12, 1535, 256], "refused 7 0", Document),
    lent("read-due-255", r#""D\t20\nS\t0\t0\t0\t0\t8\t1000\n""#, [12, 1536, 255], "refused 7 0", Document),
    lent("read-areas-0", r#""D\t20\nS\t0\t0\t0\t0\t8\t1000\n""#, [0, 0, 0], "refused 7 0", Document),
    lent("read-due-255-text-32769", r#"repeat 32769 "\n""#, [12, 1536, 255], "refused 7 0", Document),
    lent("read-due-255-empty", r#""""#, [12, 1536, 255], "refused 7 0", Document),
    lent("read-areas-longer", r#""D\t20\nS\t0\t0\t0\t0\t8\t1000\n""#, [13, 1537, 257], "accepted 0 2", Document),
    lent("read-areas-longer-types-5", r#"repeat 5 "T\t1\t1\t1\n" + "D\t20\nS\t0\t0\t0\t0\t8\t1000\n""#, [15, 1542, 257], "refused 3 5", Document),
    lent("read-areas-longer-rows-257", r#""D\t20\n" + repeat 256 "S\t0\t1\t1\t0\t1\t1\n""#, [15, 1542, 257], "refused 3 257", Document),
];
