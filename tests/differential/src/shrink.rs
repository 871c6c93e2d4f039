//! The smallest image, packed form or release that still shows a difference, by steps that each keep it.

use crate::cells::{self, CELL};

/// Takes away functions, cells and bytes as long as `shows` holds.
pub fn shrink(image: &[u8], shows: impl FnMut(&[u8]) -> bool) -> Vec<u8> {
    shrink_by(|image| Box::new(candidates(image)), image, shows)
}

/// The same by other candidates for what is shorter.
pub fn shrink_by(
    candidates: impl Fn(&[u8]) -> Box<dyn Iterator<Item = Vec<u8>> + '_>,
    bytes: &[u8],
    mut shows: impl FnMut(&[u8]) -> bool,
) -> Vec<u8> {
    let mut best = bytes.to_vec();
    loop {
        let smaller = candidates(&best).find(|candidate| shows(candidate));
        match smaller {
            Some(smaller) => best = smaller,
            None if smaller_bytes(&mut best, &mut shows) => {}
            None => return best,
        }
    }
}

/// Makes each byte in turn as small as `shows` allows; says whether one became smaller.
fn smaller_bytes(image: &mut [u8], mut shows: impl FnMut(&[u8]) -> bool) -> bool {
    let mut changed = false;
    for at in 0..image.len() {
        let byte = image[at];
        for new in [0, 1, byte / 2, byte.saturating_sub(1)] {
            image[at] = new;
            if new < byte && shows(image) {
                changed = true;
                break;
            }
            image[at] = byte;
        }
    }
    changed
}

/// Images that are shorter than the given one, the much shorter ones first.
pub(crate) fn candidates(image: &[u8]) -> impl Iterator<Item = Vec<u8>> + '_ {
    let without = move |from: usize, to: usize| [&image[..from], &image[to..]].concat();
    let heads = heads(image);
    let ends: Vec<usize> = heads.iter().skip(1).copied().chain([image.len()]).collect();

    // Runs of functions, long ones first.
    let starts = heads.clone();
    let functions = halves(starts.len()).flat_map(move |size| {
        let runs = starts.chunks(size).zip(ends.chunks(size));
        let runs: Vec<(usize, usize)> =
            runs.map(|(starts, ends)| (starts[0], ends[ends.len() - 1])).collect();
        runs.into_iter().map(move |(start, end)| without(start, end))
    });

    // Runs of instruction or event cells, with the head's count.
    let runs = heads.into_iter().flat_map(move |head| {
        let cell: &cells::Cell = image[head..head + CELL].try_into().unwrap();
        let instrs = cells::half(cell, 3) as usize;
        let events = cells::half(cell, 5) as usize;
        let first = head + CELL;
        let parts = [(3, first, instrs), (5, first + instrs * CELL, events)];
        parts.into_iter().flat_map(move |(count_at, start, count)| {
            halves(count).flat_map(move |size| {
                (0..=count - size).step_by(size).filter_map(move |skip| {
                    let from = start + skip * CELL;
                    let to = from + size * CELL;
                    if to > image.len() {
                        return None;
                    }
                    let mut smaller = without(from, to);
                    let left = (count - size) as u16;
                    smaller[head + count_at..head + count_at + 2]
                        .copy_from_slice(&left.to_le_bytes());
                    Some(smaller)
                })
            })
        })
    });

    // Parts of the bytes, whatever they are.
    let tails = (0..7).map(|power| image.len() >> power).filter(|cut| *cut > 0);
    let tails = tails.chain((1..=CELL).rev()).filter(|cut| *cut <= image.len());
    let tails = tails.map(|cut| image[..image.len() - cut].to_vec());
    let chunks = (0..image.len() / CELL).map(move |at| without(at * CELL, (at + 1) * CELL));

    functions.chain(runs).chain(tails).chain(chunks)
}

/// A size, its half and so on down to 1.
fn halves(size: usize) -> impl Iterator<Item = usize> {
    std::iter::successors(Some(size), |size| Some(size / 2)).take_while(|size| *size > 0)
}

/// Where the heads are, as far as they can be followed.
fn heads(image: &[u8]) -> Vec<usize> {
    let cells = cells::cells(image);
    let mut heads = Vec::new();
    let mut at = 0;
    while at < cells.len() && cells[at][0] == cells::HEAD {
        heads.push(at * CELL);
        at += 1 + cells::half(&cells[at], 3) as usize + cells::half(&cells[at], 5) as usize;
    }
    heads
}
