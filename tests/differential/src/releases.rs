//! Releases: of few bytes; with every length; cut and changed at every byte; of every two images; of
//! many images and of long ones; random and damaged ones.

use crate::cells::{CELL, MAX_IMAGE};
use crate::driver::LONG;
use crate::forms::runs;
use crate::generate::{
    self, any_bytes, borrow, computed, load_i32, make_record, one_function, ret, store_var,
    truncated, write, NO_OUTPUT,
};
use crate::leaves::{self, Const};
use crate::legacy_lowering::byte;
use crate::numbered;
use crate::random::Random;
use crate::release::{framed, framing, Framing, Lengths, Releasing, MAX_RELEASE, NUMBER, NUMBERS};
use crate::shrink::candidates;

// ---- Exhaustive groups ----

/// A numbered list of releases.
pub struct Releases {
    pub name: &'static str,
    pub count: usize,
    pub release: Box<dyn Fn(usize) -> Vec<u8> + Sync>,
    /// Lengths of the lent buffers.
    pub lent: fn(&Releasing) -> Vec<Lengths>,
}

pub fn exhaustive() -> Vec<Releases> {
    vec![
        short_releases(),
        every_length(),
        release_cuts(),
        two_images(),
        lent_buffers(),
        many_images(),
        long_releases(),
    ]
}

fn listed(
    name: &'static str,
    lent: fn(&Releasing) -> Vec<Lengths>,
    releases: Vec<Vec<u8>>,
) -> Releases {
    Releases {
        name,
        lent,
        count: releases.len(),
        release: Box::new(move |index| releases[index].clone()),
    }
}

/// Just long enough; longer; either a byte shorter.
const FOUR: fn(&Releasing) -> Vec<Lengths> = |_| vec![(0, 0), (1, 1), (-1, 0), (0, -1)];

/// All lists of up to 6 bytes over five, and of up to 9 over three.
fn short_releases() -> Releases {
    const FIVE: [u8; 5] = [0, 1, 2, 4, 0xFF];
    const THREE: [u8; 3] = [0, 1, 0xFF];
    let count = generate::words(&FIVE, 6);
    Releases {
        name: "short releases",
        lent: FOUR,
        count: count + generate::words(&THREE, 9),
        release: Box::new(move |index| match index.checked_sub(count) {
            None => generate::word(&FIVE, index),
            Some(index) => generate::word(&THREE, index),
        }),
    }
}

/// Images that are accepted: without bytes, without instructions, one whose addition is folded, and
/// one that is shorter when it is rewritten.
fn good_images() -> [Vec<u8>; 4] {
    let folded = [load_i32(1, 5), computed(byte::AddI32, 2, 1, 1), ret(Some(2))];
    let shorter = [load_i32(1, 5), load_i32(1, 6), ret(Some(1)), ret(None)];
    [vec![], one_function(&[], &[]), one_function(&folded, &[]), one_function(&shorter, &[])]
}

/// Three images of which one has every length near its own and the release's, or a number that with
/// its place wraps to a byte of the release, or one of these turned round.
fn every_length() -> Releases {
    let [_, head, folded, shorter] = good_images();
    let mut releases = Vec::new();
    for images in [[&head, &folded, &shorter], [&shorter, &head, &head]] {
        let release = framed(&images);
        let near = 0..=release.len() as u32 + 8;
        let lengths = near.flat_map(|length| [length, length.wrapping_neg(), length.swap_bytes()]);
        let far = [0x7FFF_FFFF, 0x8000_0000, 0x8000_0010, 0x0100_0000, 0x0001_0000, 0xFFFF];
        let lengths: Vec<u32> = lengths.chain(far).collect();
        for at in places(&release) {
            for length in &lengths {
                let mut release = release.clone();
                put_length(&mut release, at, *length);
                releases.push(release);
            }
        }
    }
    listed("every length in a release", FOUR, releases)
}

/// Five images, ended at every byte, with each byte left out or changed, and with one of three put in
/// before each.
fn release_cuts() -> Releases {
    let [empty, head, folded, shorter] = good_images();
    let release = framed(&[&folded, &vec![0xF0; 3], &empty, &shorter, &head]);
    let mut releases = Vec::new();
    for at in 0..=release.len() {
        let (before, behind) = release.split_at(at);
        releases.push(before.to_vec());
        for put in [0, 1, 0xFF] {
            releases.push([before, &[put], behind].concat());
        }
        let Some((byte, behind)) = behind.split_first() else {
            continue;
        };
        releases.push([before, behind].concat());
        for put in [0, 0xFF, byte.wrapping_add(1), byte.wrapping_sub(1), byte ^ 0x80] {
            releases.push([before, &[put], behind].concat());
        }
    }
    listed("release cuts", FOUR, releases)
}

/// Images with a site of which no byte is as another, and no event; with sites, and with these in two
/// functions; with a quad that only the fuller rewrite folds; with a load for a second round; and with
/// an addition of what that one loads.
fn other_images() -> [Vec<u8>; 6] {
    let none = one_function(&[], &[]);
    let site = one_function(&[make_record(1, Some(0x0403_0201))], &[]);
    let sites = one_function(&[store_var(1, Some(1), Some(2))], &[borrow(Some(1)), write(2)]);
    let quad = [leaves::load(1, Const::Quad(1)), computed(byte::QTruthNot, 2, 1, 0)];
    let load = [load_i32(1, 5), computed(byte::AddI32, 1, 1, 1)];
    let twice = [&sites[..], &sites].concat();
    let [quad, load] = [quad, load].map(|instrs| one_function(&instrs, &[]));
    let addition = one_function(&[computed(byte::AddI32, 3, 1, 1)], &[]);
    [[none, site].concat(), sites, twice, quad, load, addition]
}

/// Every two of these images, of the good ones and of those for each refusal number, alone or with
/// another before, between or behind them.
fn two_images() -> Releases {
    let images = good_images().into_iter().chain(generate::one_a_refusal());
    let images: Vec<Vec<u8>> = images.chain(other_images()).collect();
    let third = good_images()[2].clone();
    let count = images.len();
    Releases {
        name: "two images",
        lent: FOUR,
        count: 4 * count * count,
        release: Box::new(move |index| {
            let (one, two) = (&images[index / 4 / count], &images[index / 4 % count]);
            match index % 4 {
                0 => framed(&[one, two]),
                1 => framed(&[&third, one, two]),
                2 => framed(&[one, &third, two]),
                _ => framed(&[one, two, &third]),
            }
        }),
    }
}

/// Up to four images, some shorter when they are rewritten and some refused, in buffers of every
/// length from none to a cell more.
fn lent_buffers() -> Releases {
    let [empty, head, folded, shorter] = good_images();
    let bad = vec![0; CELL];
    let releases = [
        vec![],
        vec![&empty],
        vec![&shorter],
        vec![&bad],
        vec![&folded, &bad],
        vec![&shorter, &shorter],
        vec![&bad, &empty, &shorter, &head],
        vec![&shorter, &folded, &bad, &bad],
    ];
    let every = |it: &Releasing| {
        let [out, answers] = [it.release.len(), NUMBERS * it.images].map(|length| length as isize);
        let more = CELL as isize;
        let outs = (-out..=more).flat_map(|out| [(out, 0), (out, 7), (out, -1), (out, NO_OUTPUT)]);
        let answers = (-answers..=more).flat_map(|it| [(0, it), (7, it), (-1, it)]);
        outs.chain(answers).collect()
    };
    listed("lent buffers", every, releases.iter().map(|images| framed(images)).collect())
}

/// Up to 45 images, those around 256, and some thousands: all alike, or every other one refused.
fn many_images() -> Releases {
    let [empty, head, folded, _] = good_images();
    let counts: Vec<usize> = (0..=45).chain([127, 128, 255, 256, 257, 300, 1000]).collect();
    let bad = vec![0; 3];
    let mut releases = Vec::new();
    for count in counts {
        for two in [[&empty, &empty], [&head, &head], [&bad, &bad], [&folded, &bad]] {
            let images: Vec<&Vec<u8>> = two.into_iter().cycle().take(count).collect();
            releases.push(framed(&images));
        }
    }
    releases.push(framed(&vec![empty; 65_537]));
    listed("many images", FOUR, releases)
}

/// Images around 65,536 bytes, several together, and images far too long.
fn long_releases() -> Releases {
    let heads = |length: usize| one_function(&[], &[]).repeat(length.div_ceil(CELL));
    let image = |length: usize| heads(length)[..length].to_vec();
    let loads = one_function(&vec![load_i32(1, 5); 600], &[]);
    let small = &good_images()[2];
    let mut releases = Vec::new();
    for length in [MAX_IMAGE - 1, MAX_IMAGE, MAX_IMAGE + 1, MAX_IMAGE + CELL, 2 * MAX_IMAGE] {
        releases.push(framed(&[&image(length)]));
        releases.push(framed(&[small, &image(length), small]));
    }
    releases.push(framed(&[&loads, small, &loads]));
    releases.push(framed(&[image(40_000), image(40_000), small.clone()]));
    releases.push(framed(&[image(MAX_IMAGE), vec![], image(MAX_IMAGE)]));
    releases.push(of_length(&image(CELL + 1), MAX_RELEASE + 1));
    releases.push(framed(&[&vec![0; MAX_RELEASE], small]));
    releases.push(framed(&[small, &vec![0xF0; 0x0101_0003]]));
    listed("long releases", |_| vec![(0, 0), (-1, 0), (9, 9)], releases)
}

/// A release of just so many bytes, at least a length's: the same image again and again, the last one
/// cut or longer.
pub fn of_length(image: &[u8], length: usize) -> Vec<u8> {
    let count = (length - NUMBER) / (NUMBER + image.len());
    let mut images = vec![image.to_vec(); count + 1];
    images[count].resize(length - NUMBER - count * (NUMBER + image.len()), 0);
    framed(&images)
}

// ---- Random releases ----

/// Up to 44 images of all kinds, or some hundreds of few; in two of five the framing is damaged.
pub fn any_release(random: &mut Random) -> Vec<u8> {
    if random.chance(2) {
        return any_bytes(random, 60);
    }
    let many = random.chance(1);
    let up_to_44 = random.range(0, 44);
    let count = match many {
        true => random.range(45, 400),
        false => random.pick(&[0, 1, 1, 2, 2, 3, 3, 4, 5, 8, up_to_44]),
    };
    let mut images: Vec<Vec<u8>> = Vec::new();
    while images.len() < count {
        let again = !images.is_empty() && random.chance(if many { 98 } else { 10 });
        let image = match again {
            true => images[random.below(images.len())].clone(),
            false => any_image(random),
        };
        images.push(image);
    }
    let mut release = framed(&images);
    if random.chance(40) {
        damage(random, &mut release);
    }
    release
}

fn any_image(random: &mut Random) -> Vec<u8> {
    match random.below(80) {
        0..=27 => numbered::any_image(random),
        28..=37 => generate::damaged(random),
        38..=43 => numbered::any_numbered(random),
        44..=53 => generate::restless(random),
        54..=59 => truncated(random),
        60..=67 => {
            let images = generate::one_a_refusal();
            images[random.below(images.len())].clone()
        }
        68..=75 => Vec::new(),
        76..=78 => any_bytes(random, 40),
        _ if random.chance(25) => generate::limit(random),
        _ => vec![0xF0; random.pick(&[1, 15, 17, MAX_IMAGE + 1, MAX_IMAGE + CELL])],
    }
}

/// Where the lengths stand, as far as they can be followed.
fn places(release: &[u8]) -> Vec<usize> {
    let mut next = 0;
    let place = |image: &&[u8]| {
        let at = next;
        next += NUMBER + image.len();
        at
    };
    framing(release).images.iter().map(place).collect()
}

fn put_length(release: &mut [u8], at: usize, length: u32) {
    release[at..at + NUMBER].copy_from_slice(&length.to_le_bytes());
}

/// Changes a length or a byte, ends it early, or leaves bytes over.
pub fn damage(random: &mut Random, release: &mut Vec<u8>) {
    let places = places(release);
    let more = random.range(1, 3);
    if places.is_empty() {
        return release.extend((0..more).map(|_| random.bits() as u8));
    }
    let at = random.pick(&places);
    let any = random.below(release.len());
    match random.below(20) {
        0 | 1 => release.truncate(any),
        2 => release.truncate(at + random.below(NUMBER)),
        3 => release.extend(vec![0; more]),
        4 => release.extend((0..more).map(|_| random.bits() as u8)),
        5 => release.extend([0; NUMBER]),
        6 => release[at + random.below(NUMBER)] ^= 1 << random.below(8),
        7 => release[any] = random.bits() as u8,
        8 => release.insert(any, random.bits() as u8),
        9 => {
            release.remove(any);
        }
        _ => {
            let length = u32::from_le_bytes(release[at..at + NUMBER].try_into().unwrap());
            let behind = at + NUMBER;
            let left = (release.len() - behind) as u32;
            let length = match random.below(12) {
                0 => length.wrapping_add(1),
                1 => length.wrapping_sub(1),
                2 => length + NUMBER as u32,
                3 => length.wrapping_sub(NUMBER as u32),
                4 => length.swap_bytes(),
                5 => length | random.pick(&[1 << 16, 1 << 24, 1 << 31]),
                6 => left,
                7 => left + 1,
                8 => left + random.range(1, 1000) as u32,
                9 => u32::MAX,
                // With its place it wraps to another.
                10 => (random.pick(&places) as u32).wrapping_sub(behind as u32),
                _ => (random.below(release.len() + 1) as u32).wrapping_sub(behind as u32),
            };
            put_length(release, at, length);
        }
    }
}

/// Lengths of lent buffers: most often just enough, or as the result or the accepted images need.
pub fn any_lengths(random: &mut Random, it: &Releasing) -> Lengths {
    let longer = random.pick(&[1, NUMBER, NUMBERS, 100]) as isize;
    let result = it.both().out.len() as isize - it.release.len() as isize;
    let some = -(random.range(1, it.release.len().max(1)) as isize);
    let out =
        random.pick(&[0, 0, 0, 0, 0, longer, longer, -1, result, result - 1, some, NO_OUTPUT]);
    let [images, refused] = [it.images, it.refused()].map(|count| count as isize);
    let accepted = -(refused * NUMBERS as isize);
    let eight = -(images * NUMBER as isize);
    let answers =
        random.pick(&[0, 0, 0, 0, 0, 0, 0, longer, longer, -1, accepted, eight, NO_OUTPUT]);
    (out, answers)
}

// ---- The program's inputs ----

/// Releases of as many bytes as the program takes, a byte less and a byte more, and far more; and one
/// ended at every byte.
pub fn program_inputs() -> Vec<Vec<u8>> {
    let [_, head, folded, shorter] = good_images();
    let long = one_function(&vec![load_i32(1, 5); 2000], &[]);
    let mut inputs: Vec<Vec<u8>> = (0..=2)
        .map(|less| of_length(&long, MAX_RELEASE + 1 - less))
        .chain([of_length(&head, MAX_RELEASE), of_length(&shorter, MAX_RELEASE + NUMBER)])
        .collect();
    inputs.push(of_length(&folded, 2 * MAX_RELEASE + 3));
    inputs.push(vec![0; 3 * MAX_RELEASE]);
    inputs.push(framed(&[vec![0; MAX_RELEASE - NUMBER]]));
    let release = framed(&[&folded, &vec![0xF0; 3], &shorter]);
    inputs.extend((0..=release.len()).map(|end| release[..end].to_vec()));
    inputs
}

/// Random ones, seldom near the most bytes that the program takes.
pub fn any_input(random: &mut Random) -> Vec<u8> {
    if !random.chance(1) {
        return any_release(random);
    }
    let length = MAX_RELEASE - 2 + random.below(5);
    let image = generate::restless(random);
    of_length(&image.repeat(random.range(1, 20)), length)
}

// ---- Smaller releases ----

/// Releases that are shorter than the given one, the much shorter ones first; of a long one only those
/// that are.
pub fn shorter(release: &[u8]) -> Box<dyn Iterator<Item = Vec<u8>> + '_> {
    let Framing { images, .. } = framing(release);
    let end = images.iter().map(|image| NUMBER + image.len()).sum();
    let rest: &[u8] = &release[end..];
    let long = release.len() > LONG;
    let parts = move |count: usize| {
        let least = if long { count / 64 } else { 0 };
        runs(count).take_while(move |(from, to)| to - from > least)
    };
    let made = images.clone();
    let fewer = parts(images.len()).map(move |(from, to)| {
        [framed(&images[..from]), framed(&images[to..]), rest.to_vec()].concat()
    });
    let few = if long { 4 } else { made.len() };
    let few = if release.len() > 4 * MAX_IMAGE { 0 } else { few.min(made.len()) };
    let smaller = (0..few).flat_map(move |at| {
        let made = made.clone();
        candidates(made[at]).map(move |image| {
            let before = framed(&made[..at]);
            [before, framed(&[image]), framed(&made[at + 1..]), rest.to_vec()].concat()
        })
    });
    let bytes = parts(release.len()).map(|(from, to)| [&release[..from], &release[to..]].concat());
    Box::new(fewer.chain(smaller).chain(bytes))
}
