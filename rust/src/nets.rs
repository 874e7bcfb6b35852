//! The example nets of the directory `nets`: what each is, and how its text is made.

use crate::net::Net;
use crate::recipe;
use crate::reference;

pub struct Example {
    pub file: &'static str,
    pub what: &'static str,
    pub recipe: &'static str,
}

pub const EXAMPLES: &[Example] = &[
    Example {
        file: "a.net",
        what: "Net A of document 01: one point with a site, one sink.",
        recipe: r#""T\t2\t3\t10\nD\t20\nW\t0\t4\t5\t1\nS\t1\t6\t7\t0\t8\t1000\n""#,
    },
    Example {
        file: "b.net",
        what: "Net B of document 01: a branch with a repeater at each of its two sinks.",
        recipe: r#""T\t2\t3\t10\nD\t20\nW\t0\t4\t5\t0\nS\t1\t6\t7\t1\t8\t1000\nS\t1\t0\t3\t1\t30\t950\n""#,
    },
    Example {
        file: "tie.net",
        what: "Net A with a slower repeater: both placements have the same slack, the lighter load on the driver decides.",
        recipe: r#""T\t2\t3\t20\nD\t1\nW\t0\t4\t5\t1\nS\t1\t6\t7\t0\t8\t1000\n""#,
    },
    Example {
        file: "needless.net",
        what: "A repeater that was worth its place at its own row and is needless further up: with the one at row 1 that of row 2 gains nothing, and both are placed.",
        recipe: r#""T\t2\t0\t0\nD\t1\nW\t0\t0\t0\t1\nS\t1\t0\t10\t1\t5\t1000\n""#,
    },
    Example {
        file: "crack.net",
        what: "A branch where the choice in the middle of a list is the good one: pruning to the convex hull throws it away and is left with 6.",
        recipe: r#""T\t1\t0\t100\nT\t2\t0\t90\nD\t1\nS\t0\t0\t0\t1\t3\t100\nS\t0\t0\t0\t0\t1\t10\n""#,
    },
    Example {
        file: "bare.net",
        what: "A short drawn net with no types and no sites: the slack it has as it is.",
        recipe: r#""D\t400\nW\t0\t30\t22\t0\nS\t1\t12\t8\t0\t4\t250000\nW\t1\t45\t31\t0\nS\t3\t9\t6\t0\t6\t260000\nS\t3\t15\t11\t0\t3\t240000\n""#,
    },
    Example {
        file: "pad.net",
        what: "A heavy pad behind a short wire, with the site at the sink itself.",
        recipe: r#""T\t12\t180\t14000\nT\t40\t55\t21000\nD\t900\nS\t0\t20\t35\t1\t2400\t900000\n""#,
    },
    Example {
        file: "chain.net",
        what: "A data line of 40 pieces across the head, a site at every second joint.",
        recipe: r#""T\t4\t800\t9000\nT\t9\t350\t12000\nT\t20\t150\t16000\nD\t600\n" + each 1 39 "W\t{i-1}\t85\t48\t{i%2}\n" + "S\t39\t85\t48\t0\t7\t1500000\n""#,
    },
    Example {
        file: "star.net",
        what: "A clear line that fans out from one point to 24 cells of uneven weight, each with a site.",
        recipe: r#""T\t3\t700\t8000\nT\t8\t300\t11000\nD\t500\nW\t0\t40\t30\t1\n" + each 2 25 "S\t1\t{i*13%37+10}\t{i*7%23+6}\t1\t{i*11%19+2}\t{420000+i*i*97%60000}\n""#,
    },
    Example {
        file: "column.net",
        what: "A column line: 30 points in a row, a cell hanging at each, sites on the line only.",
        recipe: r#""T\t5\t600\t9000\nT\t14\t220\t13000\nD\t750\n" + each 0 29 "W\t{(i*2-1)*(1-1/(i+1))}\t55\t32\t1\nS\t{i*2+1}\t8\t5\t0\t{i%3+3}\t1300000\n""#,
    },
    Example {
        file: "clock.net",
        what: "A balanced tree in breadth-first order, 32 sinks alike: equal slacks everywhere.",
        recipe: r#""T\t6\t400\t10000\nT\t18\t140\t15000\nD\t300\n" + each 1 31 "W\t{i/2}\t60\t40\t1\n" + each 32 63 "S\t{i/2}\t25\t18\t0\t8\t600000\n""#,
    },
    Example {
        file: "late.net",
        what: "A long line asked for far too early: the best slack is negative, and is a result like any other.",
        recipe: r#""T\t6\t400\t10000\nD\t700\n" + each 1 20 "W\t{i-1}\t140\t90\t1\n" + "S\t20\t140\t90\t0\t12\t100000\n""#,
    },
    Example {
        file: "strobe.net",
        what: "A strobe that runs the whole head: 63 stretches of trunk, at each a branch with two sinks; with all 64 sites.",
        recipe: r#""T\t4\t900\t9000\nT\t10\t380\t12000\nT\t24\t160\t17000\nD\t450\nW\t0\t70\t45\t1\nW\t1\t30\t20\t0\nS\t2\t12\t9\t0\t5\t4800000\nS\t2\t18\t14\t0\t6\t4800000\n" + each 1 62 "W\t{i*4-3}\t{i*7%31+55}\t{i*5%23+35}\t1\nW\t{i*4+1}\t{i*11%29+15}\t{i*3%17+10}\t{i/62}\nS\t{i*4+2}\t{i*5%13+6}\t{i*7%11+4}\t0\t{i%5+3}\t{4800000+i*2500}\nS\t{i*4+2}\t{i*3%17+6}\t{i*5%13+4}\t0\t{i%4+4}\t{4800000+i*2500}\n""#,
    },
    Example {
        file: "mixed.net",
        what: "Two branches whose rows alternate in the file, parents before children but neither depth first nor breadth first.",
        recipe: r#""T\t4\t700\t9000\nT\t11\t300\t12000\nD\t500\nW\t0\t60\t40\t1\nW\t0\t50\t35\t1\n" + each 3 30 "W\t{i-2}\t{i*7%41+30}\t{i*5%29+20}\t{i%2}\n" + each 31 58 "S\t{i-28}\t{i*3%23+4}\t{i*11%17+3}\t{i%3/2}\t{i%6+2}\t{1800000+i*i*41%90000}\n""#,
    },
    Example {
        file: "limits.net",
        what: "Everything at its limit: 4 types, 256 rows, 64 sites, resistance and capacitance 100,000, required times -10^12.",
        recipe: r#""T\t100000\t100000\t1000000000\nT\t0\t100000\t1000000000\nT\t100000\t0\t1000000000\nT\t1\t1\t0\nD\t100000\n" + each 1 127 "W\t{i-1}\t100000\t100000\t{i%2}\n" + each 128 255 "S\t{i-128}\t100000\t100000\t0\t100000\t-1000000000000\n""#,
    },
    Example {
        file: "slip-spaces.net",
        what: "Hand-edited: an editor put spaces for the tabs of line 4.",
        recipe: r#""T\t4\t800\t9000\nD\t600\nW\t0\t85\t48\t1\nW 1 85 48 1\nS\t2\t85\t48\t0\t7\t1500000\n""#,
    },
    Example {
        file: "slip-parent.net",
        what: "Hand-edited: a line was taken out and the parents below not renumbered, so row 3 hangs on itself.",
        recipe: r#""T\t4\t800\t9000\nD\t600\nW\t0\t85\t48\t1\nW\t1\t85\t48\t1\nW\t3\t85\t48\t1\nS\t4\t85\t48\t0\t7\t1500000\n""#,
    },
    Example {
        file: "slip-stub.net",
        what: "Hand-edited: a sink was taken out and its point left standing with nothing below.",
        recipe: r#""T\t4\t800\t9000\nD\t600\nW\t0\t85\t48\t1\nW\t1\t30\t20\t1\nS\t1\t85\t48\t0\t7\t1500000\n""#,
    },
    Example {
        file: "slip-range.net",
        what: "Hand-edited: a pin of 7 became 700,000.",
        recipe: r#""T\t4\t800\t9000\nD\t600\nW\t0\t85\t48\t1\nS\t1\t85\t48\t0\t700000\t1500000\n""#,
    },
    Example {
        file: "slip-windows.net",
        what: "Saved by another editor: every line ends in a carriage return and a line feed.",
        recipe: r#""T\t4\t800\t9000\r\nD\t600\r\nS\t0\t85\t48\t0\t7\t1500000\r\n""#,
    },
    Example {
        file: "slip-cut.net",
        what: "Cut off in copying: the last line is not ended.",
        recipe: r#""T\t4\t800\t9000\nD\t600\nW\t0\t85\t48\t1\nS\t1\t85\t48\t0\t7\t15000""#,
    },
];

/// What the planning program prints for a text.
pub fn program_output(text: &[u8]) -> String {
    let net = match Net::read(text) {
        Err(refusal) => return format!("{refusal}\n"),
        Ok(net) => net,
    };
    let best = reference::plan(&net);
    let mut output = format!("slack {}\nload {}\n", best.pair.time, best.pair.load);
    for (row, mark) in best.placement.repeaters(&net) {
        output += &format!("buffer {row} {mark}\n");
    }
    output
}

/// The page that explains the directory.
pub fn page() -> String {
    let mut page = String::from(HEADER);
    for example in EXAMPLES {
        let text = recipe::make(example.recipe);
        let (rows, planned) = match Net::read(&text) {
            Err(refusal) => (String::new(), refusal.to_string()),
            Ok(net) => {
                let best = reference::plan(&net).pair;
                let (sites, types) = (net.site_rows().len(), net.types().len());
                let counts = format!("{}, {sites}, {types}", net.rows().len());
                (counts, format!("slack {}, load {}", best.time, best.load))
            }
        };
        page += &format!("| [{0}]({0}) | {1} | {rows} | {planned} |\n", example.file, example.what);
    }
    page
}

const HEADER: &str = "\
# Example nets

One record a line, fields parted by one tab, each line ended by a line feed. Slack in femtoseconds, load on the driver in
femtofarads; both, and the refusals, are those of the reference in `rust/`. The page and the nets are made by its program `nets`.

| File | What it is | Rows, sites, types | Planned |
|---|---|---|---|
";
