//! Runs all groups of images on several threads and reports.

use crate::answers::{Operation, Operations};
use crate::cells::{self, Cell};
use crate::compare::{hexadecimal, Difference, GUARD};
use crate::factors::{self, Leaf, LEAVES, TURNS};
use crate::forms::{self, Forms};
use crate::generate::{self, Exhaustive, Pairs, NO_OUTPUT};
use crate::joined::{self, Part};
use crate::numbered;
use crate::packed::{self, Unpacking, FAULTS};
use crate::pages::{self, SHAPES};
use crate::random::{mix, Random};
use crate::release::{self, Lengths, Releasing};
use crate::releases::{self, Releases};
use crate::rest::{self, ROUNDS};
use crate::runs::{self, Outside};
use crate::sealing::{self, Numbers, CASES};
use crate::shrink::{shrink, shrink_by};
use std::sync::atomic::{AtomicBool, Ordering};
use std::sync::Mutex;
use std::time::{Duration, Instant};

/// Who is under test.
pub type Subjects<'a> = [&'a dyn Operations];

#[derive(Default)]
pub struct Count {
    pub name: &'static str,
    pub images: u64,
    pub accepted: u64,
    /// The fuller rewrite writes other cells than the default one.
    pub differing: u64,
    /// It takes a third round until it rests.
    pub third: u64,
    /// An image counts once for each subject and each length of the lent output.
    pub comparisons: u64,
    /// An image counts once for each subject and each length of the buffer lent for its pages.
    pub pages: u64,
    /// An image or a packed form counts once for each subject and each length of the output lent for
    /// the other.
    pub packed: u64,
}

/// What occurred in the packed forms that were compared.
#[derive(Debug)]
pub struct Packing {
    /// How often each number was the answer, for each image or form and each length of the output.
    pub packed: [u64; 33],
    pub unpacked: [u64; 33],
    /// Forms, and those that are refused by what is wrong with them.
    pub forms: u64,
    pub faults: [u64; FAULTS.len()],
}

impl Default for Packing {
    fn default() -> Packing {
        Packing { packed: [0; 33], unpacked: [0; 33], forms: 0, faults: [0; FAULTS.len()] }
    }
}

impl Packing {
    fn count(&mut self, unpacking: &Unpacking) {
        self.forms += 1;
        if let Err(refused) = unpacking.answer {
            let at = FAULTS.iter().position(|(_, fault)| *fault == refused.fault).unwrap();
            self.faults[at] += 1;
        }
    }

    fn add(&mut self, other: &Packing) {
        let sums = self.packed.iter_mut().chain(&mut self.unpacked).chain(&mut self.faults);
        let counts = other.packed.iter().chain(&other.unpacked).chain(&other.faults);
        for (sum, count) in sums.zip(counts) {
            *sum += count;
        }
        self.forms += other.forms;
    }
}

/// What occurred until accepted images rested.
#[derive(Debug, Default)]
pub struct Rests {
    /// Images by the rounds that they took, the one that reports 0 counted.
    pub rounds: [u64; ROUNDS + 1],
    /// Round one wrote more than the last.
    pub longer: u64,
}

impl Rests {
    fn count(&mut self, part: &Part) {
        let Part { expected, .. } = part;
        let default = expected.written(Operation::Rewrite);
        let (Some(rested), Some(default)) = (expected.rested(), default) else {
            return;
        };
        self.rounds[rested.rounds()] += 1;
        self.longer += (default.len() > rested.bytes.len()) as u64;
    }

    fn add(&mut self, other: &Rests) {
        for (sum, count) in self.rounds.iter_mut().zip(other.rounds) {
            *sum += count;
        }
        self.longer += other.longer;
    }
}

/// What occurred in the sealing checks that were compared.
#[derive(Debug, Default)]
pub struct Sealings {
    /// Images that pass the site check, by what their answers turn on.
    pub cases: [u64; CASES.len()],
    /// Refused ones that the default rewrite makes good.
    pub gone: u64,
}

impl Sealings {
    fn count(&mut self, part: &Part) {
        let Part { expected, .. } = part;
        let default = expected.written(Operation::Rewrite);
        let (Some(numbers), Some(default)) = (expected.numbers(), default) else {
            return;
        };
        for (count, (_, case)) in self.cases.iter_mut().zip(CASES) {
            *count += case(numbers) as u64;
        }
        let gone = numbers.check().is_err() && Numbers::of(default).check().is_ok();
        self.gone += gone as u64;
    }

    fn add(&mut self, other: &Sealings) {
        for (sum, count) in self.cases.iter_mut().zip(other.cases) {
            *sum += count;
        }
        self.gone += other.gone;
    }
}

/// What occurred in the releases that were compared.
#[derive(Debug, Default)]
pub struct Released {
    pub releases: u64,
    /// Images in those that aren't refused, and refused ones of them.
    pub images: u64,
    pub refused: u64,
    /// A release counts once for each subject and each two lengths of the lent buffers.
    pub comparisons: u64,
    /// Releases, with each two lengths, by what their answers turn on.
    pub cases: [u64; release::CASES.len()],
}

impl Released {
    fn count(&mut self, releasing: &Releasing, lent: &[Lengths], subjects: usize) {
        self.releases += 1;
        self.images += releasing.outcomes().len() as u64;
        self.refused += releasing.refused() as u64;
        self.comparisons += (lent.len() * subjects) as u64;
        for (count, (_, case)) in self.cases.iter_mut().zip(release::CASES) {
            *count += lent.iter().filter(|lent| case(releasing, **lent)).count() as u64;
        }
    }

    fn add(&mut self, other: &Released) {
        self.releases += other.releases;
        self.images += other.images;
        self.refused += other.refused;
        self.comparisons += other.comparisons;
        for (sum, count) in self.cases.iter_mut().zip(other.cases) {
            *sum += count;
        }
    }
}

/// What occurred in the factors that were compared.
#[derive(Debug, Default)]
pub struct Factors {
    /// Pairs of edges, and random ones.
    pub edges: u64,
    pub random: u64,
    /// Pairs by what their answers turn on.
    pub turns: [u64; TURNS.len()],
}

impl Factors {
    fn add(&mut self, other: &Factors) {
        self.edges += other.edges;
        self.random += other.random;
        for (sum, count) in self.turns.iter_mut().zip(other.turns) {
            *sum += count;
        }
    }
}

/// What occurred in the pages that were compared.
#[derive(Debug, Default)]
pub struct Occurred {
    /// Accepted images with a buffer that was too short.
    pub too_short: u64,
    /// The longest pages that an image can have.
    pub longest: u64,
    /// Functions of accepted images, by shape.
    pub shapes: [u64; SHAPES.len()],
}

impl Occurred {
    fn count(&mut self, part: &Part) {
        let Part { image, expected } = part;
        if !expected.accepted() {
            return;
        }
        self.longest += (expected.pages_length(image) == pages::LONGEST) as u64;
        for function in cells::functions(image) {
            for (count, (_, shape)) in self.shapes.iter_mut().zip(SHAPES) {
                *count += shape(&function) as u64;
            }
        }
    }

    fn add(&mut self, other: &Occurred) {
        self.too_short += other.too_short;
        self.longest += other.longest;
        for (sum, count) in self.shapes.iter_mut().zip(other.shapes) {
            *sum += count;
        }
    }
}

/// What was lent: an output, or a buffer for the pages, for the packed form or for what is unpacked;
/// its length, less the image's or the joined one's, or less that of what is written; or a number for
/// a factor. Or both buffers for a release. Or a law, with the place at which it ends a packed form; or
/// one of what rests, or of the sealing check; or of a release, with the place at which it cuts that.
#[derive(Debug, Clone, Copy, PartialEq, Eq)]
pub enum Lent {
    Output(isize),
    Pages(isize),
    Packed(isize),
    Unpacked(isize),
    Law(usize),
    RestLaw,
    SealingLaw,
    Release(Lengths),
    ReleaseLaw(usize),
    Number,
}

/// The first difference.
pub struct Found {
    pub group: &'static str,
    pub subject: &'static str,
    /// The image, or the two that are joined; the packed form; the release; none for a factor.
    pub images: Vec<Vec<u8>>,
    pub lent: Lent,
    pub difference: Difference,
}

struct Worker<'a> {
    subjects: &'a Subjects<'a>,
    random: Random,
    counts: Vec<Count>,
    /// How often each refusal number was the answer.
    refusals: [u64; 27],
    rests: Rests,
    sealings: Sealings,
    occurred: Occurred,
    packing: Packing,
    released: Released,
    factors: Factors,
    runs: u64,
    entries: u64,
    stop: &'a AtomicBool,
    found: &'a Mutex<Option<Found>>,
}

impl Worker<'_> {
    /// Compares one image, with lent outputs of the given lengths above the image's. Gives the
    /// answers that it must get, unless the original and the model differ.
    fn image(&mut self, group: &'static str, image: &[u8], more: &[isize]) -> Option<Part> {
        let part = self.ask(group, image)?;
        self.compare(group, &part, &[image], more);
        Some(part)
    }

    /// An image with the answers that it must get, unless the original and the model differ.
    fn ask(&mut self, group: &'static str, image: &[u8]) -> Option<Part> {
        let found = |difference| self.found(group, "original", &[image], WHOLE, difference);
        Part::new(image).map_err(found).ok()
    }

    /// Compares two images joined, as far as something is claimed of them; the original too.
    fn joined(&mut self, group: &'static str, first: &Part, second: &Part, more: &[isize]) {
        let Some(part) = joined::joined(first, second) else {
            return;
        };
        let images: [&[u8]; 2] = [&first.image, &second.image];
        match joined::check_original(&part) {
            Ok(()) => self.compare(group, &part, &images, more),
            Err(difference) => self.found(group, "original", &images, WHOLE, difference),
        }
    }

    /// Compares an image, which is one or two joined, with the answers that it must get.
    fn compare(&mut self, group: &'static str, part: &Part, images: &[&[u8]], more: &[isize]) {
        let Part { image, expected } = part;
        let mut comparisons = 0;
        for &more in more {
            let out = dirty(&mut self.random, image.len().saturating_add_signed(more));
            for subject in self.subjects {
                if let Err(difference) = expected.check(*subject, image, &out) {
                    let lent = Lent::Output(more);
                    return self.found(group, subject.name(), images, lent, difference);
                }
                comparisons += 1;
            }
        }
        for subject in self.subjects.iter().filter(|_| expected.accepted()) {
            if let Err(difference) = rest::laws(*subject, image) {
                return self.found(group, subject.name(), &[image], Lent::RestLaw, difference);
            }
        }
        // Of one function the answer to the site check says all.
        let several = expected.accepted() && cells::functions(image).nth(1).is_some();
        for subject in self.subjects.iter().filter(|_| several) {
            if let Err(difference) = sealing::laws(*subject, images) {
                return self.found(group, subject.name(), images, Lent::SealingLaw, difference);
            }
        }
        let buffers = two_buffers(&mut self.random, expected.pages_length(image));
        self.pages(group, part, images, &buffers);
        self.packed(group, part, images);
        self.occurred.count(part);
        self.rests.count(part);
        self.sealings.count(part);
        if let Err(refusal) = expected.site_check() {
            self.refusals[refusal.number as usize] += 1;
        }
        let count = count_of(&mut self.counts, group);
        count.images += 1;
        count.accepted += expected.accepted() as u64;
        count.differing += expected.fuller_differs() as u64;
        count.third += expected.rested().is_some_and(|rested| rested.rounds() == ROUNDS) as u64;
        count.comparisons += comparisons;
    }

    /// Compares the pages of an image, which is one or two joined, with lent buffers of the given
    /// lengths above the pages'.
    fn pages(&mut self, group: &'static str, part: &Part, images: &[&[u8]], more: &[isize]) {
        let Part { image, expected } = part;
        for &more in more {
            let length = expected.pages_length(image).saturating_add_signed(more);
            let around = dirty(&mut self.random, length + 2 * GUARD);
            for subject in self.subjects {
                if let Err(difference) = expected.check_pages(*subject, image, &around) {
                    let lent = Lent::Pages(more);
                    return self.found(group, subject.name(), images, lent, difference);
                }
            }
            let too_short = expected.accepted() && length < expected.pages_length(image);
            self.occurred.too_short += too_short as u64;
        }
        let comparisons = (more.len() * self.subjects.len()) as u64;
        count_of(&mut self.counts, group).pages += comparisons;
    }

    /// Compares the packed form of an image, which is one or two joined, in outputs of four lengths
    /// and in one as long as the image; and what is unpacked from it, in two, and from a damaged one.
    fn packed(&mut self, group: &'static str, part: &Part, images: &[&[u8]]) {
        let Part { image, expected } = part;
        let four = four_outputs(&mut self.random);
        let [just, longer, shorter, none] = four;
        let packed_length = expected.packed_length(image);
        let lengths = [just, longer, shorter, none, (image.len() - packed_length) as isize];
        let longest = image.len().max(packed_length + LONGER);
        let around = dirty(&mut self.random, longest + 2 * GUARD);
        for more in lengths {
            let length = packed_length.saturating_add_signed(more);
            let around = &around[..length + 2 * GUARD];
            for subject in self.subjects {
                if let Err(difference) = expected.check_pack(*subject, image, around) {
                    let lent = Lent::Packed(more);
                    return self.found(group, subject.name(), images, lent, difference);
                }
            }
            self.packing.packed[expected.pack(length).0.number] += 1;
        }
        count_of(&mut self.counts, group).packed += (lengths.len() * self.subjects.len()) as u64;
        // The laws of one image in four.
        let cut = self.random.bits() as usize;
        for subject in self.subjects.iter().filter(|_| cut % 4 == 0) {
            if let Err(difference) = packed::laws(*subject, image, cut / 4) {
                let lent = Lent::Law(cut / 4);
                return self.found(group, subject.name(), &[image], lent, difference);
            }
        }
        let Some(form) = expected.packed() else {
            return;
        };
        let two = [self.random.pick(&[just, longer]), self.random.pick(&[shorter, none])];
        let unpacking = Unpacking { packed: form.to_vec(), answer: Ok(image.clone()) };
        self.unpack(group, &unpacking, &two);
        let mut damaged = unpacking.packed;
        forms::damage(&mut self.random, &mut damaged);
        let more = self.random.pick(&four);
        self.form(group, &Unpacking::new(damaged), &[more]);
    }

    /// Compares what is unpacked from some bytes, with lent outputs of the given lengths above the
    /// image's; and what is packed from that.
    fn form(&mut self, group: &'static str, unpacking: &Unpacking, more: &[isize]) {
        self.unpack(group, unpacking, more);
        for subject in self.subjects.iter().filter(|_| unpacking.answer.is_ok()) {
            if let Err(difference) = packed::packs_again(*subject, &unpacking.packed) {
                let lent = Lent::Unpacked(0);
                let forms: [&[u8]; 1] = [&unpacking.packed];
                return self.found(group, subject.name(), &forms, lent, difference);
            }
        }
    }

    /// Compares what is unpacked alone.
    fn unpack(&mut self, group: &'static str, unpacking: &Unpacking, more: &[isize]) {
        let around = dirty(&mut self.random, unpacking.image_length() + LONGER + 2 * GUARD);
        for &more in more {
            let length = unpacking.image_length().saturating_add_signed(more);
            let around = &around[..length + 2 * GUARD];
            for subject in self.subjects {
                if let Err(difference) = unpacking.check(*subject, around) {
                    let lent = Lent::Unpacked(more);
                    let forms: [&[u8]; 1] = [&unpacking.packed];
                    return self.found(group, subject.name(), &forms, lent, difference);
                }
            }
            self.packing.unpacked[unpacking.reply(length).0.number] += 1;
        }
        self.packing.count(unpacking);
        count_of(&mut self.counts, group).packed += (more.len() * self.subjects.len()) as u64;
    }

    /// Compares a release, with lent buffers of the given lengths.
    fn release(
        &mut self,
        group: &'static str,
        release: &[u8],
        lent: impl FnOnce(&mut Random, &Releasing) -> Vec<Lengths>,
    ) {
        let releasing = match Releasing::new(release) {
            Ok(releasing) => releasing,
            Err(difference) => {
                let lent = Lent::Release((0, 0));
                return self.found(group, "original", &[release], lent, difference);
            }
        };
        let lent = lent(&mut self.random, &releasing);
        let longest = lent.iter().map(|lent| releasing.around(*lent)).max().unwrap_or(0);
        let around = dirty(&mut self.random, longest);
        for lengths in &lent {
            for subject in self.subjects {
                if let Err(difference) = releasing.check(*subject, *lengths, &around) {
                    let lent = Lent::Release(*lengths);
                    return self.found(group, subject.name(), &[release], lent, difference);
                }
            }
        }
        // The laws of one release in four.
        let at = self.random.bits() as usize;
        for subject in self.subjects.iter().filter(|_| at % 4 == 0) {
            if let Err(difference) = release::laws(*subject, release, at / 4) {
                let lent = Lent::ReleaseLaw(at / 4);
                return self.found(group, subject.name(), &[release], lent, difference);
            }
        }
        self.released.count(&releasing, &lent, self.subjects.len());
    }

    fn found(
        &mut self,
        group: &'static str,
        subject: &'static str,
        images: &[&[u8]],
        lent: Lent,
        difference: Difference,
    ) {
        self.stop.store(true, Ordering::Relaxed);
        let images = images.iter().map(|image| image.to_vec()).collect();
        let found = Found { group, subject, images, lent, difference };
        self.found.lock().unwrap().get_or_insert(found);
    }

    fn stopped(&self) -> bool {
        self.stop.load(Ordering::Relaxed)
    }

    /// Runs the functions of an image as sent and as returned by the three rewrites.
    fn run_functions(&mut self, part: &Part, tries: usize) {
        match records(part, &mut self.random, tries) {
            Ok((runs, entries)) => {
                self.runs += runs;
                self.entries += entries;
            }
            Err(difference) => self.found("runs", RECORDS, &[&part.image], WHOLE, difference),
        }
    }

    /// This worker's part of an exhaustive group.
    fn every_image(&mut self, group: &Exhaustive, first: usize, step: usize) {
        for index in (first..group.count).step_by(step) {
            if self.stopped() {
                return;
            }
            let image = (group.image)(index);
            match self.image(group.name, &image, group.more) {
                Some(part) if index < group.run => self.run_functions(&part, 1),
                _ => {}
            }
        }
    }

    /// This worker's part of a group of packed forms.
    fn every_form(&mut self, group: &Forms, first: usize, step: usize) {
        for index in (first..group.count).step_by(step) {
            if self.stopped() {
                return;
            }
            self.form(group.name, &Unpacking::new((group.form)(index)), group.more);
        }
    }

    /// This worker's part of a group of releases.
    fn every_release(&mut self, group: &Releases, first: usize, step: usize) {
        for index in (first..group.count).step_by(step) {
            if self.stopped() {
                return;
            }
            self.release(group.name, &(group.release)(index), |_, it| (group.lent)(it));
        }
    }

    /// One round over random releases.
    fn release_round(&mut self) {
        for _ in 0..40 {
            let release = releases::any_release(&mut self.random);
            self.release("releases", &release, |random, it| {
                vec![(0, 0), releases::any_lengths(random, it), releases::any_lengths(random, it)]
            });
        }
    }

    /// One round over random packed forms.
    fn form_round(&mut self) {
        for _ in 0..200 {
            let form = forms::any_form(&mut self.random);
            let [one, _, two, three] = four_outputs(&mut self.random);
            let more = self.random.pick(&[one, one, two, three]);
            self.form("packed", &Unpacking::new(form), &[more]);
        }
        if self.random.chance(50) {
            let form = forms::any_end(&mut self.random);
            let more = self.random.pick(&[0, 0, -1]);
            self.form("packed limits", &Unpacking::new(form), &[more]);
        }
    }

    /// This worker's part of the pairs of images, each joined both ways round.
    fn every_pair(&mut self, pairs: &Pairs, first: usize, step: usize) {
        let seconds = pairs.seconds.iter().map(|second| self.ask(pairs.name, second));
        let Some(seconds) = seconds.collect::<Option<Vec<Part>>>() else {
            return;
        };
        for first in pairs.firsts.iter().skip(first).step_by(step) {
            let Some(first) = self.ask(pairs.name, first) else {
                return;
            };
            for second in &seconds {
                if self.stopped() {
                    return;
                }
                self.both_ways(pairs.name, &first, second, pairs.more);
            }
        }
    }

    fn both_ways(&mut self, group: &'static str, first: &Part, second: &Part, more: &[isize]) {
        self.joined(group, first, second, more);
        self.joined(group, second, first, more);
    }

    /// One round over the random groups of joined images.
    fn joined_round(&mut self) {
        for _ in 0..25 {
            let pair = generate::any_pair(&mut self.random);
            self.pair(&pair, &[0, 40, -1]);
        }
        let pair = generate::long_pair(&mut self.random);
        let more = self.random.pick(&[-1, 0, 0, 40]);
        self.pair(&pair, &[more]);
        for _ in 0..5 {
            let image = generate::several(&mut self.random);
            self.cuts(&image);
        }
        let image = generate::restless(&mut self.random);
        self.cuts(&image);
    }

    fn pair(&mut self, [first, second]: &[Vec<u8>; 2], more: &[isize]) {
        let parts = (self.ask("joined", first), self.ask("joined", second));
        if let (Some(first), Some(second)) = parts {
            self.both_ways("joined", &first, &second, more);
        }
    }

    /// Cuts an accepted image where its functions end: compares both parts, and both joined.
    fn cuts(&mut self, image: &[u8]) {
        match joined::cuts(image) {
            Ok(cuts) => {
                for [first, second] in &cuts {
                    self.compare("cut", first, &[&first.image], &[0]);
                    self.compare("cut", second, &[&second.image], &[0]);
                    self.joined("cut", first, second, &[0]);
                }
            }
            Err(difference) => self.found("cut", "original", &[image], WHOLE, difference),
        }
    }

    /// The pages of one image in buffers of every length from none to a line more, or of those
    /// around a line's.
    fn buffer_lengths(&mut self) {
        let group = "buffer lengths";
        let image = generate::any_image(&mut self.random);
        let Some(part) = self.image(group, &image, &[0]) else {
            return;
        };
        let length = part.expected.pages_length(&image) as isize;
        let line = pages::LINE as isize;
        let near = (-length..=line).filter(|more| length <= 8 * line || (more % line).abs() <= 1);
        let near: Vec<isize> = near.collect();
        self.pages(group, &part, &[&image], &near);
    }

    /// Compares the factor that gives a wanted value by another.
    fn factor(&mut self, group: &'static str, leaf: Leaf, wanted: i32, factor: i32) {
        let found = factors::model(leaf, wanted, factor);
        for subject in self.subjects {
            if let Err(difference) = factors::check(*subject, leaf, wanted, factor, found) {
                return self.found(group, subject.name(), &[], Lent::Number, difference);
            }
        }
        for (count, (_, turn)) in self.factors.turns.iter_mut().zip(TURNS) {
            *count += turn(leaf, wanted, factor, found) as u64;
        }
    }

    /// This worker's part of the pairs of edges.
    fn every_edge(&mut self, first: usize, step: usize) {
        let edges = factors::edges();
        for &wanted in edges.iter().skip(first).step_by(step) {
            for &factor in &edges {
                if self.stopped() {
                    return;
                }
                for leaf in LEAVES {
                    self.factor("edges", leaf, wanted, factor);
                    self.factors.edges += 1;
                }
            }
        }
    }

    /// One round over random pairs.
    fn factor_round(&mut self) {
        for _ in 0..1000 {
            for leaf in LEAVES {
                let (wanted, factor) = factors::any_pair(&mut self.random, leaf);
                self.factor("factors", leaf, wanted, factor);
                self.factors.random += 1;
            }
        }
    }

    /// One round over the other random groups.
    fn round(&mut self) {
        for _ in 0..150 {
            let image = numbered::any_image(&mut self.random);
            self.image("random", &image, &[0, 40]);
        }
        for _ in 0..100 {
            let image = generate::damaged(&mut self.random);
            self.image("damaged", &image, &[0, -1]);
        }
        for _ in 0..2 {
            let image = generate::any_image(&mut self.random);
            let lengths: Vec<isize> = (-33..=33).chain([NO_OUTPUT]).collect();
            self.image("output lengths", &image, &lengths);
        }
        for _ in 0..3 {
            let image = generate::paged(&mut self.random);
            self.image("pages", &image, &[0]);
        }
        if self.random.chance(10) {
            let image = generate::longest_pages(&mut self.random);
            self.image("longest pages", &image, &[0]);
        }
        self.buffer_lengths();
        for _ in 0..60 {
            let image = generate::runnable(&mut self.random);
            if let Some(part) = self.image("runs", &image, &[0]) {
                self.run_functions(&part, 4);
            }
        }
        let image = generate::limit(&mut self.random);
        let more = self.random.pick(&[-1, 0, 0, 0, 1]);
        self.image("limits", &image, &[more]);
    }

    /// One round over random images of which many take three rounds.
    fn rest_round(&mut self) {
        for _ in 0..40 {
            let image = generate::restless(&mut self.random);
            let more = self.random.pick(&[-1, 1, 16, 40, 1000]);
            if let Some(part) = self.image("rests", &image, &[0, more]) {
                self.run_functions(&part, 1);
            }
        }
        for _ in 0..5 {
            let mut image = generate::restless(&mut self.random);
            generate::damage(&mut self.random, &mut image);
            self.image("rests", &image, &[0, -1]);
        }
    }

    /// One round over random images of several functions with numbers.
    fn numbered_round(&mut self) {
        for _ in 0..60 {
            let image = numbered::any_numbered(&mut self.random);
            self.image("numbered", &image, &[0]);
        }
        for _ in 0..8 {
            let image = numbered::damaged(&mut self.random);
            self.image("numbered", &image, &[0]);
        }
        if self.random.chance(20) {
            let image = numbered::any_many(&mut self.random);
            self.image("many numbered", &image, &[0]);
        }
    }
}

/// An output as long as the image.
const WHOLE: Lent = Lent::Output(0);

/// Two lengths of a buffer for pages of some length, less that: one in which they fit, most often
/// just, and one in which they don't, most often by a byte, as far as there is one.
fn two_buffers(random: &mut Random, length: usize) -> [isize; 2] {
    let fits = random.pick(&[0, 0, 0, 1, 57, 58, 100]);
    let shorter = -(random.range(1, length.max(1)) as isize);
    [fits, random.pick(&[-1, -1, -1, NO_OUTPUT, shorter, shorter])]
}

/// Four lengths of an output, less that of what is written: the same, more, a byte less and none.
fn four_outputs(random: &mut Random) -> [isize; 4] {
    [0, random.pick(&[1, 2, 15, 16, 17, LONGER as isize]), -1, NO_OUTPUT]
}

/// An output is longer than what is written by so much at most.
const LONGER: usize = 100;

/// Stands for the subject where the records of what the original, or the model, returns are at
/// fault.
const RECORDS: &str = "returned function";

/// The rewrites whose returned functions are run.
const RUN: [(Operation, &str); 3] = [
    (Operation::Rewrite, "the default rewrite"),
    (Operation::Fuller, "the fuller rewrite"),
    (Operation::Rest, "the rewrite until it rests"),
];

/// Compares the records of each function as sent and as returned by the default rewrite, by the
/// fuller one and by the one until it rests, where the premise holds, from several registers and
/// against several outsides. Gives the number of pairs of runs and of their entries.
pub fn records(part: &Part, random: &mut Random, tries: usize) -> Result<(u64, u64), Difference> {
    let Part { image, expected } = part;
    if !expected.accepted() {
        return Ok((0, 0));
    }
    let (mut runs, mut entries) = (0, 0);
    let written = |(operation, _)| cells::functions(expected.written(operation).unwrap());
    let mut written = RUN.map(written);
    for sent in cells::functions(image) {
        let instrs = written.each_mut().map(|functions| functions.next().unwrap().instrs);
        if !runs::labels_at_one_place(sent.instrs) {
            continue;
        }
        // What several return is run once.
        let returned = RUN.iter().zip(instrs).enumerate();
        let returned = returned.filter(|(at, (_, this))| !instrs[..*at].contains(this));
        let returned: Vec<(&str, &[Cell])> =
            returned.map(|(_, ((_, rewrite), returned))| (*rewrite, returned)).collect();
        for _ in 0..tries {
            let misfits = random.pick(&[0, 2, 15]);
            let registers = runs::any_registers(random, misfits);
            let outside = Outside { seed: random.bits(), stops: random.pick(&[0, 3, 20]), misfits };
            let bound = random.pick(&[8, 40, 90]);
            for (rewrite, returned) in &returned {
                let claims = runs::claims(sent.instrs, returned, &registers, outside, bound);
                entries += claims.map_err(|error| Difference {
                    what: format!("records under {rewrite}"),
                    expected: "the three claims".into(),
                    got: format!("{error}\n{}", hexadecimal(returned.as_flattened())),
                })? as u64;
                runs += 1;
            }
        }
    }
    Ok((runs, entries))
}

/// A lent output that holds something already.
fn dirty(random: &mut Random, length: usize) -> Vec<u8> {
    let byte = random.bits() as u8;
    (0..length).map(|at| byte.wrapping_add(at as u8)).collect()
}

/// What a run over all groups came to.
pub struct Outcome {
    pub counts: Vec<Count>,
    /// How often each refusal number was the answer.
    pub refusals: [u64; 27],
    pub rests: Rests,
    pub sealings: Sealings,
    pub occurred: Occurred,
    pub packing: Packing,
    pub released: Released,
    pub factors: Factors,
    /// Pairs of runs, and the entries of their records.
    pub runs: u64,
    pub entries: u64,
    pub time: Duration,
    /// The first difference, shrunk.
    pub found: Option<Found>,
}

#[derive(Debug, Clone, Copy, PartialEq, Eq)]
pub enum Groups {
    All,
    /// Those of images that are joined or cut.
    Joined,
    /// Those of factors.
    Factors,
    /// Those of packed forms, and a few groups of images.
    Packed,
    /// Those in which images take up to three rounds, and a few others.
    Rest,
    /// Those in which functions have numbers, and a few others.
    Numbers,
    /// Those of releases.
    Releases,
}

/// The exhaustive groups as a whole, then rounds of the random ones for the rest of
/// the time, at least one.
pub fn compare(
    groups: Groups,
    subjects: &Subjects,
    seed: u64,
    seconds: u64,
    threads: usize,
) -> Outcome {
    let start = Instant::now();
    let deadline = start + Duration::from_secs(seconds);
    let exhaustive = match groups {
        Groups::All => generate::exhaustive(),
        Groups::Packed => generate::packed(),
        Groups::Rest => generate::rests(),
        Groups::Numbers => generate::numbers(),
        Groups::Joined | Groups::Factors | Groups::Releases => Vec::new(),
    };
    let forms = match groups {
        Groups::All | Groups::Packed => forms::exhaustive(),
        _ => Vec::new(),
    };
    let releases = match groups {
        Groups::All | Groups::Releases => releases::exhaustive(),
        _ => Vec::new(),
    };
    let pairs = generate::joined_short();
    let stop = AtomicBool::new(false);
    let found = Mutex::new(None);

    let workers: Vec<Worker> = std::thread::scope(|scope| {
        let start_worker = |index: usize| {
            let mut worker = Worker {
                subjects,
                random: Random::new(mix(seed ^ mix(index as u64))),
                counts: Vec::new(),
                refusals: [0; 27],
                rests: Rests::default(),
                sealings: Sealings::default(),
                occurred: Occurred::default(),
                packing: Packing::default(),
                released: Released::default(),
                factors: Factors::default(),
                runs: 0,
                entries: 0,
                stop: &stop,
                found: &found,
            };
            let (exhaustive, forms, pairs) = (&exhaustive, &forms, &pairs);
            let releases = &releases;
            let one_of = move |some: &[Groups]| groups == Groups::All || some.contains(&groups);
            scope.spawn(move || {
                if one_of(&[Groups::Factors]) {
                    worker.every_edge(index, threads);
                }
                for group in exhaustive {
                    worker.every_image(group, index, threads);
                }
                for group in forms {
                    worker.every_form(group, index, threads);
                }
                for group in releases {
                    worker.every_release(group, index, threads);
                }
                if one_of(&[Groups::Joined]) {
                    worker.every_pair(pairs, index, threads);
                }
                while !worker.stopped() {
                    if one_of(&[Groups::Factors]) {
                        worker.factor_round();
                    }
                    if one_of(&[Groups::Packed]) {
                        worker.form_round();
                    }
                    if groups == Groups::All {
                        worker.round();
                    }
                    if one_of(&[Groups::Rest]) {
                        worker.rest_round();
                    }
                    if one_of(&[Groups::Numbers]) {
                        worker.numbered_round();
                    }
                    if one_of(&[Groups::Joined]) {
                        worker.joined_round();
                    }
                    if one_of(&[Groups::Releases]) {
                        worker.release_round();
                    }
                    if Instant::now() >= deadline {
                        break;
                    }
                }
                worker
            })
        };
        let handles: Vec<_> = (0..threads).map(start_worker).collect();
        handles.into_iter().map(|handle| handle.join().unwrap()).collect()
    });

    let mut outcome = Outcome {
        counts: Vec::new(),
        refusals: [0; 27],
        rests: Rests::default(),
        sealings: Sealings::default(),
        occurred: Occurred::default(),
        packing: Packing::default(),
        released: Released::default(),
        factors: Factors::default(),
        runs: 0,
        entries: 0,
        time: start.elapsed(),
        found: None,
    };
    for worker in workers {
        for count in worker.counts {
            let sum = count_of(&mut outcome.counts, count.name);
            sum.images += count.images;
            sum.accepted += count.accepted;
            sum.differing += count.differing;
            sum.third += count.third;
            sum.comparisons += count.comparisons;
            sum.pages += count.pages;
            sum.packed += count.packed;
        }
        for (sum, count) in outcome.refusals.iter_mut().zip(worker.refusals) {
            *sum += count;
        }
        outcome.rests.add(&worker.rests);
        outcome.sealings.add(&worker.sealings);
        outcome.occurred.add(&worker.occurred);
        outcome.packing.add(&worker.packing);
        outcome.released.add(&worker.released);
        outcome.factors.add(&worker.factors);
        outcome.runs += worker.runs;
        outcome.entries += worker.entries;
    }
    let found = found.lock().unwrap().take();
    outcome.found = found.map(|found| smallest(subjects, found));
    outcome
}

fn count_of<'a>(counts: &'a mut Vec<Count>, name: &'static str) -> &'a mut Count {
    let index = counts.iter().position(|count| count.name == name);
    let index = index.unwrap_or_else(|| {
        counts.push(Count { name, ..Count::default() });
        counts.len() - 1
    });
    &mut counts[index]
}

/// Images of more bytes are made smaller for some time only.
pub(crate) const LONG: usize = 16_384;
pub(crate) const LONG_FOR: Duration = Duration::from_secs(4);
/// Packed forms of so many bytes show something at the limit, and can't be much smaller.
const LONG_FORM_FOR: Duration = Duration::from_secs(1);

/// The smallest image, the smallest two, the smallest packed form or release that show the same
/// difference; the pair of a factor as it is.
fn smallest(subjects: &Subjects, found: Found) -> Found {
    let long_for = match found.lent {
        Lent::Unpacked(_) => LONG_FORM_FOR,
        _ => LONG_FOR,
    };
    let deadline = Instant::now() + long_for;
    let same = |images: &[Vec<u8>]| {
        shown(subjects, &found, images).is_some_and(|other| other.what == found.difference.what)
    };
    if !same(&found.images) {
        return found;
    }
    // Each in turn, until none becomes smaller.
    let mut images = found.images.clone();
    loop {
        let before = images.clone();
        for at in 0..images.len() {
            let mut tried = images.clone();
            let others = images.iter().map(Vec::len).sum::<usize>() - images[at].len();
            let shows = |image: &[u8]| {
                if others + image.len() > LONG && Instant::now() > deadline {
                    return false;
                }
                tried[at] = image.to_vec();
                same(&tried)
            };
            images[at] = match found.lent {
                Lent::Unpacked(_) => shrink_by(forms::shorter, &images[at], shows),
                Lent::Release(_) | Lent::ReleaseLaw(_) => {
                    shrink_by(releases::shorter, &images[at], shows)
                }
                _ => shrink(&images[at], shows),
            };
        }
        if images == before {
            break;
        }
    }
    let difference = shown(subjects, &found, &images).unwrap();
    Found { images, difference, ..found }
}

/// The difference that an image shows, or two that are joined, if they do.
fn shown(subjects: &Subjects, found: &Found, images: &[Vec<u8>]) -> Option<Difference> {
    let subject = subjects.iter().find(|subject| subject.name() == found.subject);
    if let (Some(subject), Lent::Unpacked(more)) = (subject, found.lent) {
        let unpacking = Unpacking::new(images[0].clone());
        let length = unpacking.image_length().saturating_add_signed(more);
        let around = dirty(&mut Random::new(0), length + 2 * GUARD);
        let checked = unpacking.check(*subject, &around);
        return checked.and_then(|()| packed::packs_again(*subject, &unpacking.packed)).err();
    }
    if let (Some(subject), Lent::ReleaseLaw(at)) = (subject, found.lent) {
        return release::laws(*subject, &images[0], at).err();
    }
    if let Lent::Release(lengths) = found.lent {
        let releasing = match Releasing::new(&images[0]) {
            Ok(releasing) => releasing,
            Err(difference) => return Some(difference),
        };
        let around = dirty(&mut Random::new(0), releasing.around(lengths));
        return releasing.check(*subject?, lengths, &around).err();
    }
    let parts = images.iter().map(|image| Part::new(image));
    let mut parts = match parts.collect::<Result<Vec<Part>, Difference>>() {
        Ok(parts) => parts,
        Err(difference) => return Some(difference),
    };
    if found.subject == RECORDS {
        return records(&parts[0], &mut Random::new(0), 200).err();
    }
    let part = match &parts[..] {
        [first, second] => {
            let part = joined::joined(first, second)?;
            if let Err(difference) = joined::check_original(&part) {
                return Some(difference);
            }
            part
        }
        _ => parts.pop()?,
    };
    let subject = subject?;
    let Part { image, expected } = &part;
    let random = &mut Random::new(0);
    let differs = match found.lent {
        Lent::Output(more) => {
            let out = dirty(random, image.len().saturating_add_signed(more));
            expected.check(*subject, image, &out)
        }
        Lent::Pages(more) => {
            let length = expected.pages_length(image).saturating_add_signed(more);
            expected.check_pages(*subject, image, &dirty(random, length + 2 * GUARD))
        }
        Lent::Packed(more) => {
            let length = expected.packed_length(image).saturating_add_signed(more);
            expected.check_pack(*subject, image, &dirty(random, length + 2 * GUARD))
        }
        Lent::Law(cut) => packed::laws(*subject, image, cut),
        Lent::RestLaw => rest::laws(*subject, image),
        Lent::SealingLaw => {
            let images: Vec<&[u8]> = images.iter().map(Vec::as_slice).collect();
            sealing::laws(*subject, &images)
        }
        Lent::Unpacked(_) | Lent::Release(_) | Lent::ReleaseLaw(_) | Lent::Number => return None,
    };
    differs.err()
}
