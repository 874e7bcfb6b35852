#!/usr/bin/env python3
"""Runs every case of the vectors program through the records: a copy of the repository in which the crate `asked` asks `plan_records` and
`list_records`, with a run made from the same stamped areas, and `rt try` there. The output that is stored is what the columns
give, so where it is met both storages give the same answers, the same lists and placements, and leave their areas alike. The loads of a list
alone are handed out of columns only: the copy asks `loads_at` as it stands.

The copy is not proved: a caller that holds a run of its own is not covered.
"""
import os
import shutil
import subprocess
import sys
import tempfile

HERE = os.path.dirname(os.path.dirname(os.path.abspath(__file__)))

# The records that the columns lent to an entry make, as many as the shortest column holds: asked, and the columns as it leaves them.
BY_RECORDS = """
pub fn by_records<T, F>(loads: &mut [u32], times: &mut [i64], words: &mut [u64], entry: F) -> Result<T, Refusal>
where
    F: FnOnce(&mut [Cand]) -> Result<T, Refusal>,
{
    let none = Cand { load: Femtofarad(0), time: Femtosecond(0), words: [0; 4] };
    let mut run = [none; 775];
    let long = loads.len().min(times.len()).min(words.len() / 4);
    for i in 0..long {
        let k = 4 * i;
        run[i] = Cand {
            load: Femtofarad(loads[i]),
            time: Femtosecond(times[i]),
            words: [words[k], words[k + 1], words[k + 2], words[k + 3]],
        };
    }
    let answer = entry(&mut run[..long]);
    for i in 0..long {
        let Cand { load, time, words: marks } = run[i];
        loads[i] = load.0;
        times[i] = time.0;
        words[4 * i..4 * i + 4].copy_from_slice(&marks);
    }
    answer
}
"""

WORK = "loads, times, words"
PLAN = "plan::plan_net(net, part, ", "records::plan_records(net, part, run)"
LIST = "plan::list_at(net, row, load_part, time_part, ", "records::listing::list_records(net, row, load_part, time_part, run)"


def edit(path, change):
    with open(path) as f:
        text = f.read()
    with open(path, "w") as f:
        f.write(change(text))


def work(text):
    assert "use rules::Refusal;\n" in text
    return text.replace("use rules::Refusal;\n", "use rules::{Cand, Femtofarad, Femtosecond, Refusal};\n", 1) + BY_RECORDS


def asked(text, columns, records):
    """text whose entry on columns is asked on the records that they make"""
    call = f"{columns}{WORK})"
    assert text.count(call) == 1, call
    return text.replace(call, f"work::by_records({WORK}, |run| {records})")


with tempfile.TemporaryDirectory() as top:
    copy = os.path.join(top, "copy")
    shutil.copytree(HERE, copy, ignore=shutil.ignore_patterns(".git", "build", "target", "out"))
    source = os.path.join(copy, "crates/asked/src")
    edit(os.path.join(source, "work.rt"), work)
    edit(os.path.join(source, "planning.rt"), lambda t: asked(t, *PLAN))
    edit(os.path.join(source, "listing.rt"), lambda t: asked(t, *LIST))
    edit(os.path.join(copy, "crates.txt"), lambda t: t.replace("\nasked: ", "\nasked: runs records ", 1))
    with open(os.path.join(HERE, "crates/vectors/stdin"), "rb") as cases:
        run = subprocess.run(["rt", "try"], cwd=os.path.join(copy, "crates/vectors"), stdin=cases, stdout=subprocess.PIPE, stderr=subprocess.PIPE)
    with open(os.path.join(HERE, "crates/vectors/stdout"), "rb") as stored:
        same = run.stdout == stored.read()
    # The interpreter's limit of steps is too low for the cases, on columns as well; the compiled program ends.
    if run.returncode != 0 or not same:
        sys.stdout.buffer.write(run.stderr)
        sys.exit("records and columns differ")
    print("records and columns write the same")
