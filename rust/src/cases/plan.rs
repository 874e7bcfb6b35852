//! Nets to be planned: the examples of document 01, what wrong thinning loses, and every limit.

use super::Ask::{List, Lists, Loads, Plan, Slack};
use super::By::{Document, Hand, Reference};
use super::PlanCase;

pub const ALL: &[&[PlanCase]] = &[EXAMPLES, THINNING, TIES, CORNERS, PLACEMENTS, LIMITS];

const NONE: [u64; 4] = [0; 4];

/// P1 to P11.
#[rustfmt::skip]
pub const EXAMPLES: &[PlanCase] = &[
    PlanCase {
        name: "net-a",
        recipe: r#""T\t2\t3\t10\nD\t20\nW\t0\t4\t5\t1\nS\t1\t6\t7\t0\t8\t1000\n""#,
        asked: &[
            (Slack(NONE), "slack 430 load 20", Document),
            (Plan, "slack 687 load 7 buffers 1 1", Document),
            (Slack([1, 0, 0, 0]), "slack 687 load 7", Document),
            (List(1), "2 855 15 910", Document),
            (List(0), "7 827 20 830", Document),
            (List(2), "8 1000", Hand),
            (Loads(1), "2 15", Document),
            (Loads(0), "7 20", Document),
        ],
    },
    PlanCase {
        name: "net-a-driver-0",
        recipe: r#""T\t2\t3\t10\nD\t0\nW\t0\t4\t5\t1\nS\t1\t6\t7\t0\t8\t1000\n""#,
        asked: &[(Plan, "slack 830 load 20 buffers", Document), (Lists, "", Reference)],
    },
    PlanCase {
        name: "net-a-equal-slack",
        recipe: r#""T\t2\t3\t20\nD\t1\nW\t0\t4\t5\t1\nS\t1\t6\t7\t0\t8\t1000\n""#,
        asked: &[
            (Slack(NONE), "slack 810 load 20", Document),
            (Slack([1, 0, 0, 0]), "slack 810 load 7", Document),
            (Plan, "slack 810 load 7 buffers 1 1", Document),
            (Lists, "", Reference),
        ],
    },
    PlanCase {
        name: "net-b",
        recipe: r#""T\t2\t3\t10\nD\t20\nW\t0\t4\t5\t0\nS\t1\t6\t7\t1\t8\t1000\nS\t1\t0\t3\t1\t30\t950\n""#,
        asked: &[
            (Plan, "slack 394 load 19 buffers 2 1 3 1", Document),
            (List(1), "14 850 42 912", Document),
            (Slack(NONE), "slack -362 load 53", Document),
            (List(2), "2 966 8 1000", Hand),
            (List(3), "2 850 30 950", Hand),
            (List(0), "19 774", Hand),
            (Loads(1), "14 42", Document),
        ],
    },
    PlanCase {
        name: "least-net",
        recipe: r#""D\t20\nS\t0\t0\t0\t0\t8\t1000\n""#,
        asked: &[(Plan, "slack 840 load 8 buffers", Document), (List(0), "8 1000", Hand), (List(1), "8 1000", Hand)],
    },
    // Behind their wires rows 2 and 3 give the two lists of P10; the driver has no resistance.
    PlanCase {
        name: "branch-of-p10",
        recipe: r#""T\t4\t0\t18\nD\t0\nW\t0\t0\t0\t0\nS\t1\t2\t1\t1\t8\t38\nS\t1\t0\t0\t1\t8\t30\n""#,
        asked: &[
            (List(1), "9 10 13 12 17 20", Document),
            (List(2), "4 20 8 38", Hand),
            (List(3), "4 12 8 30", Hand),
            (Plan, "slack 20 load 17 buffers", Hand),
            (Loads(1), "9 13 17", Document),
        ],
    },
    // At row 1 the type gives (5, 0), which (5, 70) beats.
    PlanCase {
        name: "beaten-at-equal-load",
        recipe: r#""T\t5\t0\t70\nD\t0\nS\t0\t0\t0\t1\t5\t70\n""#,
        asked: &[(List(1), "5 70", Document), (Plan, "slack 70 load 5 buffers", Hand)],
    },
    // Behind row 2's wire stand (20, 100) and (45, 50).
    PlanCase {
        name: "beaten-behind-wire",
        recipe: r#""T\t20\t0\t200\nD\t0\nW\t0\t0\t0\t0\nS\t1\t10\t0\t1\t45\t500\n""#,
        asked: &[(List(2), "20 300 45 500", Hand), (List(1), "20 100", Document), (Plan, "slack 100 load 20 buffers 2 1", Hand), (Loads(1), "20", Document)],
    },
];

/// "Thinning that goes wrong": nets whose answer each mistake loses.
#[rustfmt::skip]
pub const THINNING: &[PlanCase] = &[
    // Rows 1 and 2 give (1, 0), (2, 10), (3, 100) and (1, 10); convex pruning would give 6.
    PlanCase {
        name: "convex-pruning",
        recipe: r#""T\t1\t0\t100\nT\t2\t0\t90\nD\t1\nS\t0\t0\t0\t1\t3\t100\nS\t0\t0\t0\t0\t1\t10\n""#,
        asked: &[
            (List(1), "1 0 2 10 3 100", Document),
            (List(2), "1 10", Document),
            (Plan, "slack 7 load 3 buffers 1 2", Document),
            (List(0), "2 0 3 10", Hand),
        ],
    },
    // The best time alone at row 1 is (15, 910), worth 430; the best under the driver is 687.
    PlanCase {
        name: "best-time-only",
        recipe: r#""T\t2\t3\t10\nD\t20\nW\t0\t4\t5\t1\nS\t1\t6\t7\t0\t8\t1000\n""#,
        asked: &[(Plan, "slack 687 load 7 buffers 1 1", Document)],
    },
    // A repeater worked out from the 1 fF it shows would cost 5, from the 100 it drives 500.
    PlanCase {
        name: "repeater-from-shown-load",
        recipe: r#""T\t1\t5\t0\nD\t4\nS\t0\t0\t0\t1\t100\t1000\n""#,
        asked: &[
            (List(1), "1 500 100 1000", Hand),
            (Plan, "slack 600 load 100 buffers", Hand),
            (Slack([1, 0, 0, 0]), "slack 496 load 1", Hand),
        ],
    },
    // Behind the wire (2, 90) and (7, 100) have become (3, 84) and (8, 84): one is beaten.
    PlanCase {
        name: "equal-times-behind-wire",
        recipe: r#""T\t2\t0\t10\nD\t0\nW\t0\t0\t0\t0\nS\t1\t2\t1\t1\t7\t100\n""#,
        asked: &[(List(2), "2 90 7 100", Hand), (List(1), "3 84", Hand), (Plan, "slack 84 load 3 buffers 2 1", Hand)],
    },
    // Added, the times would be 200; the greater would be 150; the least is 50.
    PlanCase {
        name: "branch-least-time",
        recipe: r#""D\t0\nS\t0\t0\t0\t0\t1\t50\nS\t0\t0\t0\t0\t1\t150\n""#,
        asked: &[(Plan, "slack 50 load 2 buffers", Hand), (List(0), "2 50", Hand)],
    },
    // Entry by entry would pair only least with least and greatest with greatest.
    PlanCase {
        name: "branch-crossed-entries",
        recipe: r#""T\t1\t0\t100\nD\t10\nS\t0\t0\t0\t1\t9\t500\nS\t0\t0\t0\t1\t9\t400\n""#,
        asked: &[(List(0), "2 300 10 400", Hand), (Plan, "slack 300 load 10 buffers 1 1", Hand), (Lists, "", Reference)],
    },
    // Row 1 is thinned behind its wire, and what was kept there is what row 0 must list.
    PlanCase {
        name: "thinned-at-every-row",
        recipe: r#""T\t1\t1\t1\nD\t3\nW\t0\t3\t1\t1\nW\t1\t3\t1\t1\nW\t2\t3\t1\t1\nS\t3\t3\t1\t1\t9\t500\n""#,
        asked: &[(Plan, "", Reference), (Lists, "", Reference)],
    },
];

/// Equal slacks, equal loads, equal times.
#[rustfmt::skip]
pub const TIES: &[PlanCase] = &[
    PlanCase {
        name: "equal-slack-unequal-loads-branch",
        recipe: r#""T\t2\t0\t6\nD\t1\nS\t0\t0\t0\t1\t8\t100\nS\t0\t0\t0\t0\t1\t100\n""#,
        asked: &[
            (Slack(NONE), "slack 91 load 9", Hand),
            (Slack([1, 0, 0, 0]), "slack 91 load 3", Hand),
            (Plan, "slack 91 load 3 buffers 1 1", Hand),
            (List(0), "3 94 9 100", Hand),
        ],
    },
    PlanCase {
        name: "equal-loads-unequal-times",
        recipe: r#""T\t5\t0\t30\nT\t5\t0\t20\nT\t5\t1\t10\nD\t9\nS\t0\t1\t1\t1\t20\t100\n""#,
        asked: &[(List(1), "5 80 20 100", Hand), (List(0), "6 74 21 79", Hand), (Plan, "slack 20 load 6 buffers 1 2", Hand)],
    },
    // Four types alike: the lowest stays wherever one is placed.
    PlanCase {
        name: "equal-types",
        recipe: r#""T\t3\t2\t5\nT\t3\t2\t5\nT\t3\t2\t5\nT\t3\t2\t5\nD\t7\nW\t0\t2\t2\t1\nS\t1\t2\t2\t1\t9\t100\nS\t1\t2\t2\t1\t9\t100\n""#,
        asked: &[(Plan, "slack -3 load 5 buffers 1 1 2 1 3 1", Hand), (Lists, "", Reference)],
    },
    // A repeater would show just what the pin does: there is none.
    PlanCase {
        name: "type-equal-to-pin",
        recipe: r#""T\t8\t0\t0\nD\t7\nS\t0\t2\t2\t1\t8\t100\n""#,
        asked: &[(Plan, "slack 10 load 10 buffers", Hand), (List(1), "8 100", Hand)],
    },
    // Row 2 keeps (2, 1000) with a repeater alone; row 1's repeater would do without it.
    PlanCase {
        name: "needless-further-up",
        recipe: r#""T\t2\t0\t0\nD\t1\nW\t0\t0\t0\t1\nS\t1\t0\t10\t1\t5\t1000\n""#,
        asked: &[
            (List(2), "2 1000", Hand),
            (List(1), "2 1000", Hand),
            (Plan, "slack 998 load 2 buffers 1 1 2 1", Hand),
            (Slack([1, 0, 0, 0]), "slack 998 load 2", Hand),
        ],
    },
    PlanCase {
        name: "all-zero",
        recipe: r#""T\t0\t0\t0\nD\t0\nW\t0\t0\t0\t1\nS\t1\t0\t0\t1\t0\t0\nS\t1\t0\t0\t1\t0\t0\n""#,
        asked: &[(Plan, "slack 0 load 0 buffers", Hand), (List(0), "0 0", Hand), (List(1), "0 0", Hand), (List(3), "0 0", Hand)],
    },
    PlanCase {
        name: "equal-times-at-branch",
        recipe: r#""T\t1\t0\t40\nD\t1\nS\t0\t0\t0\t1\t9\t100\nS\t0\t0\t0\t1\t5\t100\n""#,
        asked: &[(List(0), "2 60 14 100", Hand), (Plan, "slack 86 load 14 buffers", Hand)],
    },
];

/// No types, no sites, a repeater at a sink, other orders of the rows.
#[rustfmt::skip]
pub const CORNERS: &[PlanCase] = &[
    PlanCase {
        name: "no-types-but-sites",
        recipe: r#""D\t20\nW\t0\t4\t5\t1\nS\t1\t6\t7\t1\t8\t1000\n""#,
        asked: &[(Plan, "slack 430 load 20 buffers", Hand), (List(0), "20 830", Hand), (List(1), "15 910", Hand), (List(2), "8 1000", Hand)],
    },
    PlanCase {
        name: "types-but-no-sites",
        recipe: r#""T\t2\t3\t10\nT\t1\t1\t1\nD\t20\nW\t0\t4\t5\t0\nS\t1\t6\t7\t0\t8\t1000\n""#,
        asked: &[(Plan, "slack 430 load 20 buffers", Hand), (List(0), "20 830", Hand)],
    },
    PlanCase {
        name: "repeater-at-sink",
        recipe: r#""T\t2\t3\t10\nD\t100\nS\t0\t0\t1\t1\t50\t9000\n""#,
        asked: &[
            (Plan, "slack 8540 load 3 buffers 1 1", Hand),
            (List(1), "2 8840 50 9000", Hand),
            (List(0), "3 8840 51 9000", Hand),
            (Slack(NONE), "slack 3900 load 51", Hand),
        ],
    },
    PlanCase {
        name: "negative-slack",
        recipe: r#""T\t2\t3\t10\nD\t20\nW\t0\t4\t5\t1\nS\t1\t6\t7\t0\t8\t-1000\n""#,
        asked: &[(Plan, "slack -1313 load 7 buffers 1 1", Hand), (List(1), "2 -1145 15 -1090", Hand)],
    },
    PlanCase {
        name: "two-types-two-places",
        recipe: r#""T\t1\t9\t10\nT\t6\t1\t30\nD\t30\nW\t0\t5\t10\t1\nW\t1\t5\t40\t1\nS\t2\t5\t10\t1\t60\t9000\nS\t1\t1\t5\t1\t2\t4000\n""#,
        asked: &[(Plan, "", Reference), (Lists, "", Reference)],
    },
    PlanCase {
        name: "net-b-breadth-first",
        recipe: r#""T\t2\t3\t10\nD\t20\nW\t0\t4\t5\t1\nW\t0\t3\t2\t1\nS\t1\t6\t7\t1\t8\t1000\nS\t2\t1\t1\t1\t20\t900\nS\t1\t0\t3\t1\t30\t950\nS\t2\t5\t5\t0\t4\t990\n""#,
        asked: &[(Plan, "", Reference), (Lists, "", Reference)],
    },
    PlanCase {
        name: "net-b-depth-first",
        recipe: r#""T\t2\t3\t10\nD\t20\nW\t0\t4\t5\t1\nS\t1\t6\t7\t1\t8\t1000\nS\t1\t0\t3\t1\t30\t950\nW\t0\t3\t2\t1\nS\t4\t1\t1\t1\t20\t900\nS\t4\t5\t5\t0\t4\t990\n""#,
        asked: &[(Plan, "", Reference), (Lists, "", Reference)],
    },
];

/// Refusals 6 and 8, and marks at the ends of words.
#[rustfmt::skip]
pub const PLACEMENTS: &[PlanCase] = &[
    PlanCase {
        name: "marks-on-net-a",
        recipe: r#""T\t2\t3\t10\nD\t20\nW\t0\t4\t5\t1\nS\t1\t6\t7\t0\t8\t1000\n""#,
        asked: &[
            (Slack([2, 0, 0, 0]), "refused 6 3", Document),
            (Slack([15, 0, 0, 0]), "refused 6 3", Document),
            (Slack([16, 0, 0, 0]), "refused 6 0", Document),
            (Slack([17, 0, 0, 0]), "refused 6 0", Document),
            (Slack([18, 0, 0, 0]), "refused 6 3", Document),
            (Slack([0, 0, 0, 1 << 60]), "refused 6 0", Document),
            (Slack([0, 1, 0, 0]), "refused 6 0", Document),
            (List(3), "refused 8 0", Document),
            (List(256), "refused 8 0", Document),
            (List(4294967295), "refused 8 0", Document),
            (Loads(3), "refused 8 0", Document),
            (Loads(4294967295), "refused 8 0", Document),
        ],
    },
    PlanCase {
        name: "marks-on-64-sites",
        recipe: r#""T\t1\t2\t3\nT\t2\t1\t3\nD\t20\n" + each 1 64 "S\t0\t{i}\t{i*3%7}\t1\t{i*5%11+1}\t{1000+i}\n""#,
        asked: &[
            (Slack([0x1111_1111_1111_1111; 4]), "", Reference),
            (Slack([0x2121_2121_2121_2121; 4]), "", Reference),
            (Slack([0, 0, 0, 2 << 60]), "", Reference),
            (Slack([0, 0, 0, 3 << 60]), "refused 6 67", Document),
            (Slack([3 << 60, 3, 0, 0]), "refused 6 19", Document),
            (Slack([0, 3, 0, 15 << 60]), "refused 6 20", Document),
            (Slack([u64::MAX; 4]), "refused 6 4", Document),
            (Plan, "", Reference),
            (List(0), "", Reference),
            (List(65), "refused 8 0", Document),
        ],
    },
    PlanCase {
        name: "marks-without-types",
        recipe: r#""D\t20\nW\t0\t4\t5\t0\nS\t1\t6\t7\t1\t8\t1000\n""#,
        asked: &[(Slack(NONE), "slack 430 load 20", Hand), (Slack([1, 0, 0, 0]), "refused 6 3", Document)],
    },
];

/// Every limit of the ranges and rooms.
#[rustfmt::skip]
pub const LIMITS: &[PlanCase] = &[
    PlanCase {
        name: "due-greatest",
        recipe: r#""D\t0\nS\t0\t0\t0\t0\t0\t1000000000000\n""#,
        asked: &[(Plan, "slack 1000000000000 load 0 buffers", Hand)],
    },
    // The driver's load is 255 × 200,000; its delay that times 100,000; the wire's 20,000,000,000.
    PlanCase {
        name: "star-all-limits",
        recipe: r#""D\t100000\n" + repeat 255 "S\t0\t100000\t100000\t0\t100000\t-1000000000000\n""#,
        asked: &[(Plan, "slack -6120000000000 load 51000000 buffers", Hand), (List(0), "51000000 -1020000000000", Hand), (Loads(0), "51000000", Hand)],
    },
    // Wire k from the end drives k × 100,000 and the pin: 100,000² × (2 + … + 256), and the driver's.
    PlanCase {
        name: "chain-all-limits",
        recipe: r#""D\t100000\n" + each 1 254 "W\t{i-1}\t100000\t100000\t0\n" + "S\t254\t100000\t100000\t0\t100000\t-1000000000000\n""#,
        asked: &[(Plan, "slack -332510000000000 load 25600000 buffers", Hand), (List(0), "", Reference)],
    },
    PlanCase {
        name: "chain-64-sites-4-types",
        recipe: r#""T\t2\t90\t400\nT\t5\t40\t500\nT\t9\t20\t700\nT\t20\t8\t900\nD\t120\n" + each 1 254 "W\t{i-1}\t{i*7%13+1}\t{i*5%11+1}\t{(i%4/3)}\n" + "S\t254\t6\t7\t1\t30\t1000000\n""#,
        asked: &[(Plan, "", Reference), (List(0), "", Reference), (List(100), "", Reference), (List(255), "", Reference)],
    },
    PlanCase {
        name: "chain-limits-64-sites-4-types",
        recipe: r#""T\t100000\t100000\t1000000000\nT\t0\t100000\t1000000000\nT\t100000\t0\t1000000000\nT\t1\t1\t0\nD\t100000\n" + each 1 254 "W\t{i-1}\t100000\t100000\t{(i%4/3)}\n" + "S\t254\t100000\t100000\t1\t100000\t-1000000000000\n""#,
        asked: &[(Plan, "", Reference), (List(0), "", Reference), (List(4), "", Reference)],
    },
    PlanCase {
        name: "star-64-sites-4-types",
        recipe: r#""T\t1\t90\t400\nT\t2\t40\t500\nT\t3\t20\t700\nT\t4\t8\t900\nD\t17\n" + each 1 64 "S\t0\t{i%5}\t{i*3%7}\t1\t{i*37%97+30}\t{90000+i*i*31%9973}\n" + each 65 255 "S\t0\t{i%5}\t{i*3%7}\t0\t{i*37%17}\t{95000+i*i*31%9973}\n""#,
        asked: &[(Plan, "", Reference), (List(0), "", Reference), (List(1), "", Reference)],
    },
    PlanCase {
        name: "binary-breadth-first-256",
        recipe: r#""T\t3\t60\t300\nT\t6\t30\t350\nT\t12\t15\t400\nT\t24\t7\t500\nD\t55\n" + each 1 127 "W\t{(i-1)/2}\t{i*11%17+3}\t{i*7%19+2}\t{1-(i+60)/125}\n" + each 128 255 "S\t{(i-1)/2}\t{i*11%17+3}\t{i*7%19+2}\t0\t{i*29%31+1}\t{200000+i*i*13%7919}\n""#,
        asked: &[(Plan, "", Reference), (List(0), "", Reference), (List(1), "", Reference), (List(2), "", Reference), (List(7), "", Reference)],
    },
    PlanCase {
        name: "comb-64-sites-4-types",
        recipe: r#""T\t2\t300\t3000\nT\t5\t140\t3500\nT\t9\t80\t4200\nT\t18\t35\t5000\nD\t150\n" + each 1 127 "W\t{i-1}\t{i*7%23+5}\t{i*13%29+4}\t{i%2}\n" + each 128 255 "S\t{i-128}\t{i*3%19+1}\t{i*5%23+1}\t0\t{i*11%13+1}\t{3000000-i*i*17%99991}\n""#,
        asked: &[(Plan, "", Reference), (List(0), "", Reference), (List(1), "", Reference), (List(64), "", Reference)],
    },
    // Sinks whose times lie far apart, so that hardly a pair is beaten: the longest lists.
    PlanCase {
        name: "longest-list",
        recipe: r#""T\t1\t0\t1000000000\nT\t2\t0\t900000000\nT\t3\t0\t800000000\nT\t4\t0\t700000000\nD\t1\n" + each 1 64 "S\t0\t0\t0\t1\t{100+i}\t{1000000000+i*1000003}\n" + repeat 191 "S\t0\t0\t0\t0\t1\t1000000000000\n""#,
        asked: &[(Plan, "", Reference), (List(0), "", Reference), (List(64), "", Reference), (Loads(0), "", Reference)],
    },
    PlanCase {
        name: "zero-wires-256",
        recipe: r#""T\t1\t5\t7\nT\t3\t2\t9\nD\t11\n" + each 1 127 "W\t{i-1}\t0\t0\t{i%2}\n" + each 128 255 "S\t{i-128}\t0\t0\t0\t{i%7}\t{5000+i*i%101}\n""#,
        asked: &[(Plan, "", Reference), (List(0), "", Reference), (List(127), "", Reference)],
    },
];
