//! The steps of the method on lists in the lent run, each linear. A list has loads and times
//! strictly rising.

use crate::entries::{Candidate, Tables};
use crate::room;

#[derive(Clone, Copy, Default)]
pub struct Repeater {
    input_load: u64,
    resistance: i64,
    own_delay: i64,
    mark: u64,
}

/// The types with their input loads rising, so that what they offer comes in the order of a list;
/// of equal loads the lower type first, so that it stays where both offer the same.
pub fn by_load(tables: &Tables) -> ([Repeater; room::TYPES], usize) {
    let mut repeaters = [Repeater::default(); room::TYPES];
    let count = tables.type_count;
    let types = tables.types.chunks_exact(room::TYPE_WORDS).take(count);
    for (index, words) in types.enumerate() {
        repeaters[index] = Repeater {
            input_load: words[0].into(),
            resistance: words[1].into(),
            own_delay: words[2].into(),
            mark: index as u64 + 1,
        };
    }
    repeaters[..count].sort_unstable_by_key(|repeater| (repeater.input_load, repeater.mark));
    (repeaters, count)
}

/// Loads stay strictly rising behind a wire; times may not.
pub fn pass_wire(
    work: &mut [Candidate],
    start: usize,
    end: usize,
    resistance: u32,
    capacitance: u32,
) -> usize {
    let (resistance, capacitance) = (i64::from(resistance), u64::from(capacitance));
    if resistance == 0 {
        for candidate in &mut work[start..end] {
            candidate.load += capacitance;
        }
        return end;
    }
    let list = &mut work[start..end];
    let mut kept = 0;
    let mut latest = i64::MIN;
    for at in 0..list.len() {
        let candidate = &list[at];
        let load = candidate.load + capacitance;
        let time = candidate.time - resistance * load as i64;
        if time > latest {
            latest = time;
            list[kept] = Candidate { load, time, words: candidate.words };
            kept += 1;
        }
    }
    start + kept
}

/// What a type offers: the candidate it would drive, as seen through it, and its mark.
#[derive(Clone, Copy, Default)]
struct Offer {
    seen: Candidate,
    mark: u64,
}

/// Puts what each type offers among the list it was made from.
pub fn pass_site(
    work: &mut [Candidate],
    start: usize,
    end: usize,
    repeaters: &[Repeater],
    site: usize,
) -> usize {
    let mut offers = [Offer::default(); room::TYPES];
    let mut count = 0;
    for repeater in repeaters {
        let offer = offer(&work[start..end], repeater);
        // Offers come with loads rising: a later one that is no better is beaten or the same.
        if count == 0 || offer.seen.time > offers[count - 1].seen.time {
            if count > 0 && offer.seen.load == offers[count - 1].seen.load {
                count -= 1;
            }
            offers[count] = offer;
            count += 1;
        }
    }
    put_among(work, start, end, &offers[..count], site)
}

/// The first of the greatest times behind the repeater.
fn offer(list: &[Candidate], repeater: &Repeater) -> Offer {
    let mut best = &list[0];
    let mut greatest = i64::MIN;
    for candidate in list {
        let time = candidate.time - repeater.resistance * candidate.load as i64;
        if time > greatest {
            greatest = time;
            best = candidate;
        }
    }
    let time = greatest - repeater.own_delay;
    let seen = Candidate { load: repeater.input_load, time, words: best.words };
    Offer { seen, mark: repeater.mark }
}

/// Moves the list up once by the number of offers; after the last offer it then stands where it
/// belongs, unless something was beaten.
fn put_among(
    work: &mut [Candidate],
    start: usize,
    end: usize,
    offers: &[Offer],
    site: usize,
) -> usize {
    work.copy_within(start..end, start + offers.len());
    let end = end + offers.len();
    let mut from = start + offers.len();
    let mut to = start;
    let mut latest = i64::MIN;
    for Offer { seen, mark } in offers {
        while from < end && comes_first(&work[from], seen) {
            latest = work[from].time;
            work[to] = work[from];
            to += 1;
            from += 1;
        }
        if seen.time <= latest {
            continue;
        }
        latest = seen.time;
        work[to] = *seen;
        work[to].words[site / 16] |= mark << (4 * (site % 16));
        to += 1;
        while from < end && work[from].time <= latest {
            from += 1;
        }
    }
    if from != to {
        work.copy_within(from..end, to);
    }
    to + (end - from)
}

/// Whether a candidate of the list stands before an offer, or covers it at the same load: what
/// stands stays.
fn comes_first(listed: &Candidate, offer: &Candidate) -> bool {
    listed.load < offer.load || listed.load == offer.load && listed.time >= offer.time
}

/// Joins the lists at `left..right` and `right..end`, and leaves the result at `left`. Both are
/// walked once, always past the earlier time; nothing made so is ever beaten.
pub fn join(work: &mut [Candidate], left: usize, right: usize, end: usize) -> usize {
    if right - left == 1 {
        let alone = work[left];
        return join_one(work, alone, right, end, left);
    }
    if end - right == 1 {
        let alone = work[right];
        return join_one(work, alone, left, right, left);
    }
    let (mut a, mut b, mut made) = (left, right, end);
    while a < right && b < end {
        let (x, y) = (&work[a], &work[b]);
        let joined = meet(x, y);
        let (pass_a, pass_b) = (x.time <= y.time, y.time <= x.time);
        work[made] = joined;
        made += 1;
        a += usize::from(pass_a);
        b += usize::from(pass_b);
    }
    work.copy_within(end..made, left);
    left + (made - end)
}

/// One candidate against a list: the list up to the first that is as late, written from `to` on.
fn join_one(work: &mut [Candidate], alone: Candidate, from: usize, end: usize, to: usize) -> usize {
    let mut made = to;
    for at in from..end {
        let last = work[at].time >= alone.time;
        work[made] = meet(&work[at], &alone);
        made += 1;
        if last {
            break;
        }
    }
    made
}

fn meet(x: &Candidate, y: &Candidate) -> Candidate {
    Candidate {
        load: x.load + y.load,
        time: x.time.min(y.time),
        words: std::array::from_fn(|word| x.words[word] | y.words[word]),
    }
}
