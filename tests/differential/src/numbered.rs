//! Images of several functions with numbers on their commands, some of which an earlier function has
//! (document 02, W13).

use crate::cells::{self, Cell, CELL, MAX_EVENTS, MAX_IMAGE};
use crate::generate::{
    self, any_events, any_function_with, any_often, any_shape, borrow, damage, events_for,
    load_i32, make_record, one_a_refusal, one_function, put_site, ret, several_functions, spoil,
    store_var, word, words, Exhaustive, Shape, SHORT,
};
use crate::random::Random;
use crate::table;
use std::collections::HashMap;

/// Groups in which functions share a number, or none, in every way.
pub fn exhaustive() -> Vec<Exhaustive> {
    vec![short_numbers(), two_numbers(), places(), orders(), both_numbers(), many_numbers()]
}

// ---- Exhaustive groups ----

/// Commands with numbers, a return, an event that is refused, and the head of a next function; the
/// events that the numbers ask for are in the other order, of a MakeRecord two.
fn short_numbers() -> Exhaustive {
    let alphabet = vec![
        store_var(1, Some(1), None),
        store_var(1, Some(2), None),
        store_var(1, None, Some(1)),
        store_var(1, Some(1), Some(2)),
        make_record(1, Some(1)),
        make_record(1, Some(2)),
        ret(None),
        borrow(Some(3)),
        cells::head(7, 0, 0),
    ];
    Exhaustive {
        name: "short numbers",
        more: &[0],
        run: 0,
        count: words(&alphabet, SHORT),
        image: Box::new(move |index| several_functions(&word(&alphabet, index), in_other_order)),
    }
}

fn in_other_order(instrs: &[Cell]) -> Vec<Cell> {
    let mut events = events_for(instrs, |_| 2);
    events.reverse();
    events
}

/// A command with a number.
pub type Numbered = fn(u32) -> Cell;

pub const ACTIVATION: Numbered = |number| store_var(1, Some(number), None);
pub const WRITE: Numbered = |number| store_var(1, None, Some(number));
pub const RECORD: Numbered = |number| make_record(1, Some(number));
/// The same number of both kinds.
pub const BOTH: Numbered = |number| store_var(1, Some(number), Some(number));

const NUMBERED: [Numbered; 4] = [ACTIVATION, WRITE, RECORD, BOTH];

/// A function with the events that it asks for.
fn function(instrs: &[Cell]) -> Vec<u8> {
    one_function(instrs, &in_other_order(instrs))
}

/// Two functions of a command each, every two kinds: the same number, which is any edge, or two that
/// differ in one bit or are alike in some bytes.
fn two_numbers() -> Exhaustive {
    let edges = [0, 1, 255, 65_535, 65_536, 1 << 31, u32::MAX - 1, u32::MAX, 0x0102_0304];
    let one_bit = |number: u32| (0..32).map(move |bit| (number, number ^ 1 << bit));
    let mut pairs: Vec<(u32, u32)> = edges.map(|edge| (edge, edge)).to_vec();
    pairs.extend([0, u32::MAX, 0x0102_0304].into_iter().flat_map(one_bit));
    pairs.extend([(0x0102_0304, 0x0403_0201), (0xFFFF_0000, 0xFFFF), (5, 0x0505_0505)]);
    let kinds = NUMBERED.len();
    Exhaustive {
        name: "two numbers",
        more: &[0],
        run: 0,
        count: pairs.len() * kinds * kinds,
        image: Box::new(move |index| {
            let (one, two) = pairs[index / (kinds * kinds)];
            let (first, second) = (NUMBERED[index / kinds % kinds], NUMBERED[index % kinds]);
            [function(&[first(one)]), function(&[second(two)])].concat()
        }),
    }
}

/// Where two functions with the same number, or different ones, stand among others, and whether they
/// are reached; all names the same, or the later one's another.
fn places() -> Exhaustive {
    #[derive(Clone, Copy)]
    enum Place {
        First,
        Second,
        /// Without cells; of an event; without numbers; with others.
        Empty,
        EventAlone,
        Unnumbered,
        Others,
    }
    use Place::{Empty, EventAlone, First, Others, Second, Unnumbered};
    let arrangements: [&[Place]; 12] = [
        &[First, Second],
        &[Empty, First, Second],
        &[First, Empty, Second],
        &[First, EventAlone, Second],
        &[First, Unnumbered, Second],
        &[First, Others, Second],
        &[Others, First, Second],
        &[First, Second, Others],
        &[First, Second, Second],
        &[First, Second, Empty, Second],
        &[Unnumbered, Others, First, Empty, EventAlone, Second],
        &[First, Second, Unnumbered, Empty],
    ];
    let numbers = [(7, 7), (7, 8)];
    let kinds = NUMBERED.len();
    let count = arrangements.len() * numbers.len() * kinds * kinds * 4 * 2;
    Exhaustive {
        name: "places",
        more: &[0],
        run: 0,
        count,
        image: Box::new(move |index| {
            let (arrangement, index) =
                (arrangements[index % arrangements.len()], index / arrangements.len());
            let ((one, two), index) = (numbers[index % numbers.len()], index / numbers.len());
            let (first, index) = (NUMBERED[index % kinds](one), index / kinds);
            let (second, index) = (NUMBERED[index % kinds](two), index / kinds);
            let list = |cell, reached| if reached { vec![cell] } else { vec![ret(None), cell] };
            let (first, second) = (list(first, index % 2 == 0), list(second, index / 2 % 2 == 0));
            let name = 7 + (index / 4) as u16;
            let mut image = Vec::new();
            for place in arrangement {
                let (name, instrs) = match place {
                    First => (7, first.clone()),
                    Second => (name, second.clone()),
                    Unnumbered => (7, vec![load_i32(1, 5), store_var(1, None, None), ret(None)]),
                    Others => (7, vec![store_var(1, Some(100), Some(200)), RECORD(100)]),
                    Empty | EventAlone => (7, Vec::new()),
                };
                let mut events = in_other_order(&instrs);
                if let EventAlone = place {
                    events.push(borrow(None));
                }
                cells::push_function(&mut image, name, &instrs, &events);
            }
            image
        }),
    }
}

/// A function with three numbers in every order, its events in every order; each of the numbers in
/// the function before, in the one before that, or in neither.
fn orders() -> Exhaustive {
    const ORDERS: [[usize; 3]; 6] =
        [[0, 1, 2], [0, 2, 1], [1, 0, 2], [1, 2, 0], [2, 0, 1], [2, 1, 0]];
    // One kind, or StoreVars and MakeRecords.
    let kinds =
        [[ACTIVATION; 3], [WRITE; 3], [RECORD; 3], [RECORD, WRITE, RECORD], [BOTH, WRITE, BOTH]];
    let numbers = [3, 5, 9];
    let earlier = 27;
    Exhaustive {
        name: "orders",
        more: &[0],
        run: 0,
        count: kinds.len() * earlier * 2 * ORDERS.len() * ORDERS.len(),
        image: Box::new(move |index| {
            let (commands, index) = (ORDERS[index % 6], index / 6);
            let (events, index) = (ORDERS[index % 6], index / 6);
            let (falling, index) = (index % 2 == 1, index / 2);
            let (earlier, kinds) = (index % earlier, kinds[index / earlier]);
            let cell = |at: usize| kinds[at](numbers[at]);
            let mut image = Vec::new();
            for place in [1, 2] {
                let there = (0..3).filter(|at| earlier / 3usize.pow(*at) % 3 == place);
                let mut instrs: Vec<Cell> = there.map(|at| cell(at as usize)).collect();
                if falling {
                    instrs.reverse();
                }
                image.extend(function(&instrs));
            }
            let events: Vec<Cell> =
                events.iter().flat_map(|at| events_for(&[cell(*at)], |_| 1)).collect();
            image.extend(one_function(&commands.map(cell), &events));
            image
        }),
    }
}

/// A function with numbers of both kinds, and up to three behind it that repeat one kind, both or
/// none, in every order; nothing else, or an image for each refusal before them, among them or behind
/// them.
fn both_numbers() -> Exhaustive {
    let alphabet = [
        store_var(1, Some(1), None),
        make_record(1, Some(2)),
        store_var(1, Some(1), Some(2)),
        store_var(1, Some(2), Some(1)),
        ret(None),
    ];
    let mut refused = one_a_refusal();
    // And one that the site check passes.
    refused.push(Vec::new());
    let lists = words(&alphabet, 3);
    Exhaustive {
        name: "both numbers",
        more: &[0],
        run: 0,
        count: lists * refused.len() * 3,
        image: Box::new(move |index| {
            let (list, index) = (word(&alphabet, index % lists), index / lists);
            let (refused, place) = (&refused[index / 3], index % 3);
            let mut functions: Vec<Vec<u8>> = list.iter().map(|cell| function(&[*cell])).collect();
            functions.insert(0, function(&[store_var(1, Some(1), Some(2))]));
            functions.insert([0, 1, functions.len()][place], refused.clone());
            functions.concat()
        }),
    }
}

/// As many functions as fit, of one number, of 45 or of 1,023: all different, or one as an earlier one.
fn many_numbers() -> Exhaustive {
    let sizes = [1, 45, 1023];
    let repeats = 7;
    Exhaustive {
        name: "many numbers",
        more: &[0],
        run: 0,
        count: sizes.len() * NUMBERED.len() * repeats,
        image: Box::new(move |index| {
            let (size, index) = (sizes[index % sizes.len()], index / sizes.len());
            let (numbered, index) = (NUMBERED[index % NUMBERED.len()], index / NUMBERED.len());
            let many = Many::most(size, numbered);
            let (size, last) = (many.size, many.count - 1);
            let repeat = match index {
                0 => None,
                1 => Some((last, 0)),
                2 => Some((last, last - size)),
                3 => Some((size, 0)),
                4 => Some((size, size - 1)),
                5 => Some((last / 2 + size / 2, last / 3)),
                _ => Some((last, last / 2)),
            };
            many.image(repeat)
        }),
    }
}

/// Functions of so many commands with numbers each, the last of what is left.
#[derive(Clone, Copy)]
pub struct Many {
    size: usize,
    numbered: Numbered,
    count: usize,
}

impl Many {
    /// As many commands as an image has room for, and of one function as its events have.
    pub fn most(size: usize, numbered: Numbered) -> Many {
        let events = events_for(&[numbered(1)], |_| 1).len();
        let size = size.min(MAX_EVENTS / events);
        let (cells, a_function) = (MAX_IMAGE / CELL, 1 + size * (1 + events));
        let left = (cells % a_function).saturating_sub(1) / (1 + events);
        Many { size, numbered, count: cells / a_function * size + left }
    }

    /// How many commands a function has, and all have.
    pub fn size(&self) -> usize {
        self.size
    }

    pub fn count(&self) -> usize {
        self.count
    }

    /// All numbers different, in no order; or one of them as an earlier one.
    pub fn image(&self, repeat: Option<(usize, usize)>) -> Vec<u8> {
        let number = |at: usize| (at as u32).wrapping_mul(0x9E37_79B1);
        let mut numbers: Vec<u32> = (0..self.count).map(number).collect();
        if let Some((later, earlier)) = repeat {
            numbers[later] = numbers[earlier];
        }
        let mut image = Vec::new();
        for (name, numbers) in numbers.chunks(self.size).enumerate() {
            let instrs: Vec<Cell> = numbers.iter().map(|number| (self.numbered)(*number)).collect();
            let mut events = events_for(&instrs, |_| 1);
            events.reverse();
            cells::push_function(&mut image, name as u16, &instrs, &events);
        }
        image
    }
}

// ---- Random images ----

/// Two to six functions, most of them with numbers: those of earlier ones never, seldom or often, and
/// such as differ from them in a bit or a byte or are of the other kind; one image in ten with bad
/// sites.
pub fn any_numbered(random: &mut Random) -> Vec<u8> {
    let shared = random.pick(&[0, 0, 5, 15, 50]);
    let spoiled = random.chance(10);
    let mut used = [Vec::new(), Vec::new()];
    let mut image = Vec::new();
    for _ in 0..random.pick(&[2, 2, 3, 3, 4, 6]) {
        let sites = random.pick(&[0, 30, 60, 90]);
        let shape = Shape { instrs: random.below(12), sites, ..any_shape(random) };
        let often = any_often(random);
        let (mut instrs, _) = any_function_with(random, shape, often);
        renumber(random, &mut instrs, &mut used, shared);
        let mut events = any_events(random, &instrs);
        if spoiled && random.chance(40) {
            spoil(random, &mut instrs, &mut events);
        }
        let name = if random.chance(60) { 7 } else { random.bits() as u16 };
        cells::push_function(&mut image, name, &instrs, &events);
    }
    image
}

/// The same with a byte, a cell or the length changed.
pub fn damaged(random: &mut Random) -> Vec<u8> {
    let mut image = any_numbered(random);
    damage(random, &mut image);
    image
}

/// The places of a command's activation number and of its write number.
fn number_places(cell: &Cell) -> [Option<usize>; 2] {
    table::layout(cell[0])
        .map_or([None; 2], |layout| [layout.activation_site, layout.write_site])
        .map(|place| place.filter(|place| cells::site(cell, *place).is_some()))
}

/// Gives a function other numbers, some of a hundred those of earlier functions, by kind.
fn renumber(random: &mut Random, instrs: &mut [Cell], used: &mut [Vec<u32>; 2], shared: usize) {
    let mut here = [Vec::new(), Vec::new()];
    for cell in instrs {
        for (kind, place) in number_places(cell).into_iter().enumerate() {
            let Some(place) = place else {
                continue;
            };
            let number = loop {
                let shares = !used[kind].is_empty() && random.chance(shared);
                let number = match shares {
                    true => random.pick(&used[kind]),
                    false => another(random, &used.concat()),
                };
                if !here[kind].contains(&number) && (shares || !used[kind].contains(&number)) {
                    break number;
                }
            };
            put_site(cell, place, Some(number));
            here[kind].push(number);
        }
    }
    for (used, here) in used.iter_mut().zip(here) {
        used.extend(here);
    }
}

/// A number, most often like one of these.
fn another(random: &mut Random, used: &[u32]) -> u32 {
    let any = random.bits() as u32;
    if used.is_empty() {
        return random.pick(&[0, 1, u32::MAX, any]);
    }
    let like = random.pick(used);
    match random.below(8) {
        0 => random.pick(&[0, 1, 2, u32::MAX - 1, u32::MAX]),
        1 => any,
        // Of the other kind, if it isn't refused.
        2 | 3 => like,
        4 => like ^ 1 << random.below(32),
        5 => like ^ (any & 0xFF) << random.pick(&[8, 16, 24]),
        6 => like ^ (any & 0xFFFF) << 16,
        _ => like.wrapping_add(1),
    }
}

/// An image of many numbers, all different, or one of them as an earlier one.
pub fn any_many(random: &mut Random) -> Vec<u8> {
    let most = Many::most(random.pick(&[1, 1, 2, 3, 10, 45, 300, 1023]), random.pick(&NUMBERED));
    let fewer = random.range(most.count / 2, most.count);
    let many = Many { count: random.pick(&[most.count, fewer]), ..most };
    let repeat = random.chance(75).then(|| {
        let last = many.count - 1;
        let before = random.range(last / 2, last);
        let later = random.pick(&[last, before]);
        (later, random.below(later))
    });
    many.image(repeat)
}

/// An image of any functions; in one of two the functions' numbers are from few.
pub fn any_image(random: &mut Random) -> Vec<u8> {
    let image = match random.below(4) {
        0 | 1 => return generate::any_image(random),
        2 => generate::any_image(random),
        _ => generate::several(random),
    };
    renumbered(&image, |_| (random.below(6) as u32, random.below(8) as u32))
}

/// An image in which each function's numbers are its own.
pub fn apart(image: &[u8]) -> Vec<u8> {
    // No function has as many.
    renumbered(image, |place| (place << 12, 0))
}

/// An image with other numbers. Of a function those of either kind are counted from a first one, with
/// some bits turned; both may go by its place.
fn renumbered(image: &[u8], mut counted: impl FnMut(u32) -> (u32, u32)) -> Vec<u8> {
    let mut renamed = Vec::new();
    for (place, function) in (0..).zip(cells::functions(image)) {
        let mut counted = [counted(place), counted(place)];
        let mut numbers: HashMap<(usize, u32), u32> = HashMap::new();
        let mut rename = |cell: &mut Cell, places: [Option<usize>; 2]| {
            for (kind, place) in places.into_iter().enumerate() {
                let number = place.and_then(|place| Some((place, cells::site(cell, place)?)));
                let Some((place, number)) = number else {
                    continue;
                };
                let (next, turned) = &mut counted[kind];
                let number = numbers.entry((kind, number)).or_insert_with(|| {
                    *next += 1;
                    (*next - 1) ^ *turned
                });
                put_site(cell, place, Some(*number));
            }
        };
        let (mut instrs, mut events) = (function.instrs.to_vec(), function.events.to_vec());
        for cell in &mut instrs {
            let places = number_places(cell);
            rename(cell, places);
        }
        let places = [cells::EVENT_ACTIVATION_SITE, cells::EVENT_WRITE_SITE].map(Some);
        events.iter_mut().for_each(|event| rename(event, places));
        cells::push_function(&mut renamed, function.name, &instrs, &events);
    }
    renamed
}
