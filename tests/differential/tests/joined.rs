//! Shows that the groups of joined images alone find programs in which one function leans on another
//! (document 02, W12).

#[macro_use]
mod common;

use differential::answers::{Checked, Operation, Operations, Refusal, Reply, Rewritten, Success};
use differential::cells::{self, Cell, Function, CELL, MAX_EVENTS, MAX_IMAGE, MAX_INSTRS};
use differential::driver::{self, Groups};
use differential::factors::Leaf;
use differential::generate::{
    self, borrow, label, load_i32, one_function, ret, store_var, write, Pairs,
};
use differential::joined::{self, Part};
use differential::leaves;
use differential::legacy_lowering::byte;
use differential::model::{self, Model};
use differential::random::Random;
use differential::table;
use std::collections::HashSet;
use Operation::{Cleanup, CrystalFold, Fuller, Rest, Rewrite};

/// A program that answers as the model does but for one fault in one of its operations.
#[derive(Debug, Clone, Copy)]
struct Wrong(Place, Fault);

#[derive(Debug, Clone, Copy, PartialEq)]
enum Place {
    ImageCheck,
    SiteCheck,
    Run(Operation),
}
use Place::{ImageCheck, Run, SiteCheck};

#[derive(Debug, Clone, Copy, PartialEq)]
enum Fault {
    Carries(Carried),
    CountForgetsTheFirst,
    CountIsTheGreatest,
    ChangedAsTheLast,
    OutputsInTheOtherOrder,
    OutputsInTheirOldPlaces,
    PositionNotMoved,
    DetailFromTheFunction,
    SiteMovedOn,
    LastRefusalDecides,
    ActivationSitesAcrossFunctions,
    WriteSitesAcrossFunctions,
    EventsOfAllFunctions,
    InstructionsOfAllFunctionsLimited,
    EventsOfAllFunctionsLimited,
    LengthBelow(usize),
    RefusesAlone(usize),
}
use Fault::*;

/// What of a function changes the next one.
#[derive(Debug, Clone, Copy, PartialEq)]
enum Carried {
    Nothing,
    /// The label just kept.
    Label,
    /// That a Ret or a Jmp came, and no label since.
    Unreachable,
    /// A Jmp at the end goes if the next function begins with its label.
    Jmp,
    /// A load at the end goes if the next function begins with a load into its register.
    Load,
    /// The sites of unreachable commands, whose events go.
    Sites,
    /// What is known of the registers.
    Known,
}

const WRONG: [Wrong; 53] = [
    Wrong(Run(Rewrite), Carries(Carried::Label)),
    Wrong(Run(Cleanup), Carries(Carried::Label)),
    Wrong(Run(Fuller), Carries(Carried::Label)),
    Wrong(Run(Rest), Carries(Carried::Label)),
    Wrong(Run(Rewrite), Carries(Carried::Unreachable)),
    Wrong(Run(Cleanup), Carries(Carried::Unreachable)),
    Wrong(Run(Fuller), Carries(Carried::Unreachable)),
    Wrong(Run(Rest), Carries(Carried::Unreachable)),
    Wrong(Run(Rewrite), Carries(Carried::Jmp)),
    Wrong(Run(Cleanup), Carries(Carried::Jmp)),
    Wrong(Run(Fuller), Carries(Carried::Jmp)),
    Wrong(Run(Rest), Carries(Carried::Jmp)),
    Wrong(Run(Rewrite), Carries(Carried::Load)),
    Wrong(Run(Cleanup), Carries(Carried::Load)),
    Wrong(Run(Fuller), Carries(Carried::Load)),
    Wrong(Run(Rest), Carries(Carried::Load)),
    Wrong(Run(Rewrite), Carries(Carried::Sites)),
    Wrong(Run(Cleanup), Carries(Carried::Sites)),
    Wrong(Run(Fuller), Carries(Carried::Sites)),
    Wrong(Run(Rest), Carries(Carried::Sites)),
    Wrong(Run(CrystalFold), Carries(Carried::Known)),
    Wrong(Run(Fuller), Carries(Carried::Known)),
    Wrong(Run(Rest), Carries(Carried::Known)),
    Wrong(Run(Rewrite), CountForgetsTheFirst),
    Wrong(Run(Cleanup), CountForgetsTheFirst),
    Wrong(Run(CrystalFold), CountForgetsTheFirst),
    Wrong(Run(Fuller), CountForgetsTheFirst),
    Wrong(Run(Rest), CountForgetsTheFirst),
    Wrong(Run(Rewrite), CountIsTheGreatest),
    Wrong(Run(Rewrite), ChangedAsTheLast),
    Wrong(Run(Rewrite), OutputsInTheOtherOrder),
    Wrong(Run(Cleanup), OutputsInTheOtherOrder),
    Wrong(Run(CrystalFold), OutputsInTheOtherOrder),
    Wrong(Run(Fuller), OutputsInTheOtherOrder),
    Wrong(Run(Rest), OutputsInTheOtherOrder),
    Wrong(Run(Rewrite), OutputsInTheirOldPlaces),
    Wrong(ImageCheck, PositionNotMoved),
    Wrong(SiteCheck, PositionNotMoved),
    Wrong(Run(Rewrite), PositionNotMoved),
    Wrong(Run(Rest), PositionNotMoved),
    Wrong(ImageCheck, DetailFromTheFunction),
    Wrong(SiteCheck, DetailFromTheFunction),
    Wrong(Run(Rewrite), DetailFromTheFunction),
    Wrong(SiteCheck, SiteMovedOn),
    Wrong(SiteCheck, LastRefusalDecides),
    Wrong(SiteCheck, ActivationSitesAcrossFunctions),
    Wrong(SiteCheck, WriteSitesAcrossFunctions),
    Wrong(SiteCheck, EventsOfAllFunctions),
    Wrong(ImageCheck, InstructionsOfAllFunctionsLimited),
    Wrong(ImageCheck, EventsOfAllFunctionsLimited),
    Wrong(ImageCheck, LengthBelow(MAX_IMAGE)),
    Wrong(ImageCheck, LengthBelow(MAX_IMAGE + CELL + 1)),
    Wrong(SiteCheck, RefusesAlone(12)),
];

/// A cell, and its function's position.
type Placed = (usize, Cell);

/// Cleanup over the instructions of all functions in one list; two cells of different functions are
/// neighbours only as far as something is carried over.
fn cleaned(image: &[u8], carried: Carried) -> (Vec<u8>, u32) {
    let functions: Vec<Function> = cells::functions(image).collect();
    let placed = |part: fn(&Function) -> Vec<Cell>| -> Vec<Placed> {
        let functions = functions.iter().enumerate();
        functions.flat_map(|(at, f)| part(f).into_iter().map(move |cell| (at, cell))).collect()
    };
    let mut instrs = placed(|function| function.instrs.to_vec());
    let mut events = placed(|function| function.events.to_vec());
    let before = instrs.len();

    instrs.dedup_by(|(at, cell), (kept_at, kept)| {
        cell[0] == byte::Label && cell == kept && (at == kept_at || carried == Carried::Label)
    });
    drop_unreachable(&mut instrs, &mut events, carried);
    let name = |cell: &Cell| cells::half(cell, 1);
    drop_by_next(&mut instrs, carried == Carried::Jmp, |cell, next| {
        cell[0] == byte::Jmp && next[0] == byte::Label && name(cell) == name(next)
    });
    drop_by_next(&mut instrs, carried == Carried::Load, |cell, next| {
        let load = |cell| leaves::loaded(cell).is_some() && cell[0] != byte::LoadU32;
        load(cell) && load(next) && name(cell) == name(next)
    });

    let mut bytes = Vec::new();
    for (at, function) in functions.iter().enumerate() {
        let of = |cells: &[Placed]| -> Vec<Cell> {
            cells.iter().filter(|(of, _)| *of == at).map(|(_, cell)| *cell).collect()
        };
        cells::push_function(&mut bytes, function.name, &of(&instrs), &of(&events));
    }
    (bytes, (before - instrs.len()) as u32)
}

/// An instruction's site, and where an event has one of that kind.
const ACTIVATION: (fn(&table::Layout) -> Option<usize>, usize) =
    (|layout| layout.activation_site, cells::EVENT_ACTIVATION_SITE);
const WRITE: (fn(&table::Layout) -> Option<usize>, usize) =
    (|layout| layout.write_site, cells::EVENT_WRITE_SITE);

fn site(place: fn(&table::Layout) -> Option<usize>, cell: &Cell) -> Option<u32> {
    cells::site(cell, place(table::layout(cell[0])?)?)
}

/// Drops what is behind a Ret or a Jmp, up to the next label, and the events of its sites.
fn drop_unreachable(instrs: &mut Vec<Placed>, events: &mut Vec<Placed>, carried: Carried) {
    // The function of the Ret or Jmp, while no label comes.
    let mut ended = None;
    // The function, the kind and the number of a site.
    let mut gone: HashSet<(usize, usize, u32)> = HashSet::new();
    instrs.retain(|(at, cell)| {
        let here = ended == Some(*at) || carried == Carried::Unreachable;
        if cell[0] == byte::Label || !here {
            ended = None;
        }
        let keep = ended.is_none();
        if keep && [byte::Ret, byte::Jmp].contains(&cell[0]) {
            ended = Some(*at);
        }
        for (place, kind) in [ACTIVATION, WRITE] {
            gone.extend(site(place, cell).filter(|_| !keep).map(|site| (*at, kind, site)));
        }
        keep
    });
    events.retain(|(at, event)| {
        !gone.iter().any(|(of, kind, site)| {
            let here = of == at || carried == Carried::Sites;
            here && cells::site(event, *kind) == Some(*site)
        })
    });
}

/// Drops the cells that the next one makes superfluous, also that of the next function or not.
fn drop_by_next(
    instrs: &mut Vec<Placed>,
    next_function: bool,
    superfluous: impl Fn(&Cell, &Cell) -> bool,
) {
    for index in (1..instrs.len()).rev() {
        let ((at, cell), (next_at, next)) = (instrs[index - 1], instrs[index]);
        if (at == next_at || next_function) && superfluous(&cell, &next) {
            instrs.remove(index - 1);
        }
    }
}

/// The fold; what is known is carried over if all instructions are one function's.
fn folded(image: &[u8], rules: model::Rules, carried: Carried) -> (Vec<u8>, u32) {
    if carried != Carried::Known {
        return model::passes(image, false, Some(rules));
    }
    let all: Vec<Cell> = cells::functions(image).flat_map(|f| f.instrs.to_vec()).collect();
    let (folded, count) = model::passes(&one_function(&all, &[]), false, Some(rules));
    let mut rest = &cells::cells(&folded)[1..];
    let mut bytes = Vec::new();
    for function in cells::functions(image) {
        let (instrs, after) = rest.split_at(function.instrs.len());
        cells::push_function(&mut bytes, function.name, instrs, function.events);
        rest = after;
    }
    (bytes, count)
}

/// An operation in which something is carried over.
fn carrying(operation: Operation, image: &[u8], carried: Carried) -> (Vec<u8>, u32) {
    let rules: model::Rules = match operation {
        Cleanup => return cleaned(image, carried),
        CrystalFold => return folded(image, &model::default_rules, carried),
        Rewrite => &model::default_rules,
        Fuller => &model::fuller_rules,
        Rest => return resting(image, carried),
    };
    let (bytes, one) = cleaned(image, carried);
    let (bytes, two) = folded(&bytes, rules, carried);
    (bytes, one + two)
}

/// The default rewrite in which something is carried over, until it reports 0.
fn resting(image: &[u8], carried: Carried) -> (Vec<u8>, u32) {
    let (bytes, count) = carrying(Rewrite, image, carried);
    if count == 0 {
        return (bytes, 0);
    }
    let (bytes, more) = resting(&bytes, carried);
    (bytes, count + more)
}

/// The functions of an image as images of their own, as far as their heads can be followed.
fn alone(image: &[u8]) -> Vec<&[u8]> {
    let mut functions = Vec::new();
    let mut rest = image;
    while let Some(head) = cells::cells(rest).first().filter(|head| head[0] == cells::HEAD) {
        let cells = 1 + cells::half(head, 3) as usize + cells::half(head, 5) as usize;
        let (function, after) = rest.split_at((cells * CELL).min(rest.len()));
        functions.push(function);
        rest = after;
    }
    functions
}

/// What a fault makes of a refusal.
fn refused(fault: Fault, image: &[u8], refusal: Refusal) -> Refusal {
    let Refusal { number, position, detail } = refusal;
    let before: usize = alone(image).iter().take(position as usize).map(|part| part.len()).sum();
    let first = (before / CELL) as u32;
    match fault {
        PositionNotMoved => Refusal { position: 0, ..refusal },
        DetailFromTheFunction if number <= 4 => Refusal { detail: detail - first, ..refusal },
        SiteMovedOn if number > 10 => Refusal { detail: detail + first, ..refusal },
        _ => refusal,
    }
}

/// The first site, by a function's position, that stands in an earlier function too.
fn repeated(image: &[u8], place: fn(&table::Layout) -> Option<usize>) -> Option<(usize, u32)> {
    let mut earlier = HashSet::new();
    for (at, function) in cells::functions(image).enumerate() {
        let here: Vec<u32> = function.instrs.iter().filter_map(|cell| site(place, cell)).collect();
        if let Some(site) = here.iter().find(|site| earlier.contains(*site)) {
            return Some((at, *site));
        }
        earlier.extend(here);
    }
    None
}

/// All functions as one.
fn together(image: &[u8]) -> Vec<u8> {
    let instrs: Vec<Cell> = cells::functions(image).flat_map(|f| f.instrs.to_vec()).collect();
    let events: Vec<Cell> = cells::functions(image).flat_map(|f| f.events.to_vec()).collect();
    one_function(&instrs, &events)
}

/// The position and the cell of the first head behind which a part of all functions so far together
/// is longer than that of one function may be.
fn past(image: &[u8], most: usize, part: fn(&Function) -> usize) -> Option<(usize, usize)> {
    let (mut sum, mut cell) = (0, 0);
    cells::functions(image).enumerate().find_map(|(at, function)| {
        sum += part(&function);
        let head = cell;
        cell += 1 + function.instrs.len() + function.events.len();
        (sum > most).then_some((at, head))
    })
}

impl Wrong {
    /// The fault, if it is in this operation.
    fn fault(&self, place: Place) -> Option<Fault> {
        (self.0 == place).then_some(self.1)
    }

    fn answer(&self, operation: Operation, image: &[u8], out: &mut [u8]) -> Rewritten {
        let before = out.to_vec();
        let answer = Model.run(operation, image, out);
        let Some(fault) = self.fault(Run(operation)) else {
            return answer;
        };
        let success = answer.map_err(|refusal| refused(fault, image, refusal))?;
        let parts = alone(image).into_iter().map(|part| model::rewritten(operation, part));
        let parts: Vec<(Vec<u8>, u32)> = parts.collect();
        let mut counts = parts.iter().map(|(_, count)| *count);
        match fault {
            Carries(carried) => {
                let (bytes, num_rewrites) = carrying(operation, image, carried);
                out.copy_from_slice(&before);
                out[..bytes.len()].copy_from_slice(&bytes);
                Ok(Success { length: bytes.len(), num_rewrites, changed: num_rewrites > 0 })
            }
            CountForgetsTheFirst if parts.len() > 1 => {
                let num_rewrites = counts.skip(1).sum();
                Ok(Success { num_rewrites, changed: num_rewrites > 0, ..success })
            }
            CountIsTheGreatest => {
                Ok(Success { num_rewrites: counts.max().unwrap_or(0), ..success })
            }
            ChangedAsTheLast => Ok(Success {
                changed: counts.next_back().is_some_and(|count| count > 0),
                ..success
            }),
            OutputsInTheOtherOrder => {
                let bytes: Vec<u8> = parts.into_iter().rev().flat_map(|(bytes, _)| bytes).collect();
                out[..bytes.len()].copy_from_slice(&bytes);
                Ok(success)
            }
            OutputsInTheirOldPlaces => {
                out.copy_from_slice(&before);
                let mut place = 0;
                for (sent, (bytes, _)) in alone(image).iter().zip(&parts) {
                    out[place..place + bytes.len()].copy_from_slice(bytes);
                    place += sent.len();
                }
                Ok(success)
            }
            _ => Ok(success),
        }
    }
}

impl Operations for Wrong {
    fn name(&self) -> &'static str {
        "wrong"
    }
    fn image_check(&self, image: &[u8]) -> Checked {
        let answer = model::image_check(image);
        let Some(fault) = self.fault(ImageCheck) else {
            return answer;
        };
        let head = match fault {
            LengthBelow(length) if image.len() < length && image.len() > MAX_IMAGE => {
                return Ok(());
            }
            LengthBelow(length) if image.len() >= length => {
                return Err(Refusal { number: 1, position: 0, detail: 0 });
            }
            InstructionsOfAllFunctionsLimited if answer.is_ok() => {
                past(image, MAX_INSTRS, |function| function.instrs.len())
            }
            EventsOfAllFunctionsLimited if answer.is_ok() => {
                past(image, MAX_EVENTS, |function| function.events.len())
            }
            _ => None,
        };
        if let Some((position, detail)) = head {
            return Err(Refusal { number: 2, position: position as u32, detail: detail as u32 });
        }
        answer.map_err(|refusal| refused(fault, image, refusal))
    }
    fn site_check(&self, image: &[u8]) -> Checked {
        let answer = model::site_check(image);
        let Some(fault) = self.fault(SiteCheck) else {
            return answer;
        };
        if model::image_check(image).is_ok() {
            let across = match fault {
                ActivationSitesAcrossFunctions => {
                    repeated(image, ACTIVATION.0).map(|found| (11, found))
                }
                WriteSitesAcrossFunctions => repeated(image, WRITE.0).map(|found| (21, found)),
                EventsOfAllFunctions if model::site_check(&together(image)).is_ok() => {
                    return Ok(());
                }
                LastRefusalDecides => {
                    let parts = alone(image).into_iter().map(model::site_check).enumerate();
                    let last = parts.filter_map(|(at, part)| Some((at, part.err()?))).next_back();
                    last.map(|(at, refusal)| (refusal.number, (at, refusal.detail)))
                }
                RefusesAlone(cells) if alone(image).len() == 1 && image.len() > cells * CELL => {
                    Some((14, (0, 0)))
                }
                _ => None,
            };
            if let Some((number, (position, detail))) = across {
                return Err(Refusal { number, position: position as u32, detail });
            }
        }
        answer.map_err(|refusal| refused(fault, image, refusal))
    }
    fn sealing_check(&self, image: &[u8]) -> Checked {
        Model.sealing_check(image)
    }
    fn pages(&self, image: &[u8], out: &mut [u8]) -> Reply {
        Model.pages(image, out)
    }
    fn cleanup(&self, image: &[u8], out: &mut [u8]) -> Rewritten {
        self.answer(Cleanup, image, out)
    }
    fn crystalfold(&self, image: &[u8], out: &mut [u8]) -> Rewritten {
        self.answer(CrystalFold, image, out)
    }
    fn rewrite(&self, image: &[u8], out: &mut [u8]) -> Rewritten {
        self.answer(Rewrite, image, out)
    }
    fn fuller(&self, image: &[u8], out: &mut [u8]) -> Rewritten {
        self.answer(Fuller, image, out)
    }
    fn rest(&self, image: &[u8], out: &mut [u8]) -> Rewritten {
        self.answer(Rest, image, out)
    }
    packing_of_the_model!();
    releases_of_the_model!();
    fn factor(&self, leaf: Leaf, wanted: i32, factor: i32, other: &mut i32) -> usize {
        Model.factor(leaf, wanted, factor, other)
    }
}

#[test]
fn every_leaning_program_is_found() {
    for wrong in WRONG {
        let outcome = driver::compare(Groups::Joined, &[&wrong], 1, 20, 1);
        let found = outcome.found.unwrap_or_else(|| panic!("{wrong:?} isn't found"));
        let cells = found.images.concat().len().div_ceil(CELL);
        println!("{wrong:?}: {}: {}, {cells} cells", found.group, found.difference.what);
        let Wrong(place, fault) = wrong;
        // These show only in long images.
        let long = matches!(
            fault,
            InstructionsOfAllFunctionsLimited
                | EventsOfAllFunctionsLimited
                | LengthBelow(_)
                | RefusesAlone(_)
        );
        assert_eq!(found.group != "joined, short", long, "{wrong:?}: {}", found.group);
        assert!(cells <= 9 || long, "{wrong:?} isn't shrunk: {cells} cells");
        // In the operation in which the fault is, and in no other.
        let what = match place {
            ImageCheck => "image check".into(),
            SiteCheck => "site check".into(),
            Run(operation) => format!("{operation:?}"),
        };
        assert!(found.difference.what.starts_with(&what), "{wrong:?}: {}", found.difference.what);
    }
}

/// Without a fault nothing is found; and all pairs of short functions are joined, both ways round, of
/// which something is claimed.
#[test]
fn the_model_is_right() {
    let outcome = driver::compare(Groups::Joined, &[&Model], 1, 15, 1);
    assert!(outcome.found.is_none());
    let count = |name| outcome.counts.iter().find(|count| count.name == name).unwrap();
    let Pairs { firsts, seconds, .. } = generate::joined_short();
    let pass = |images: &[Vec<u8>]| {
        images.iter().filter(|image| model::image_check(image).is_ok()).count()
    };
    let claimed = pass(&firsts) * seconds.len() + pass(&seconds) * firsts.len();
    assert_eq!(count("joined, short").images, claimed as u64);
    for group in ["joined", "cut"] {
        assert!(count(group).accepted >= 100, "{group}");
    }
}

/// They are wrong by what one function does to another alone.
#[test]
fn leaning_programs_are_right_on_one_function() {
    let images = generate::joined_short().firsts;
    for image in images.iter().filter(|image| alone(image) == [&image[..]]) {
        let Part { expected, .. } = Part::new(image).unwrap();
        for wrong in WRONG {
            assert!(expected.check(&wrong, image, image).is_ok(), "{wrong:?}");
        }
    }
}

/// Those that carry something over are right if they don't.
#[test]
fn carrying_nothing_is_right() {
    let check = |image: &[u8]| {
        for operation in [Rewrite, Cleanup, CrystalFold, Fuller, Rest] {
            let right = model::rewritten(operation, image);
            assert!(carrying(operation, image, Carried::Nothing) == right, "{operation:?}");
        }
    };
    let pairs = generate::joined_short();
    for first in pairs.firsts.iter().filter(|image| model::site_check(image).is_ok()) {
        for second in pairs.seconds.iter().filter(|image| model::site_check(image).is_ok()) {
            check(&[&first[..], second].concat());
        }
    }
    let mut random = Random::new(1);
    for _ in 0..300 {
        check(&generate::several(&mut random));
    }
}

/// A good function of two cells; one that is refused by its sites; one that is by a cell.
fn rows() -> [Vec<u8>; 3] {
    [
        one_function(&[ret(None)], &[]),
        one_function(&[store_var(1, None, Some(9))], &[write(9), write(9)]),
        one_function(&[label(1), load_i32(1024, 5)], &[]),
    ]
}

/// The refusals of joined images, worked out by hand: first, second, the image check's and the site
/// check's number, position and detail.
#[test]
fn refusals_by_hand() {
    let [good, sites, cells] = &rows();
    let (no_head, promises, long) = (&vec![0; CELL], &cells::head(7, 1, 0).to_vec(), &vec![0; 17]);
    let two = &[&good[..], good].concat();
    let refused = |number, position, detail| Err(Refusal { number, position, detail });
    let row = |first, second, image, site| (first, second, Some((image, site)));
    let rows = [
        row(good, good, Ok(()), Ok(())),
        // The position moves by the functions, a cell's by the cells.
        row(good, cells, refused(4, 1, 4), refused(4, 1, 4)),
        row(two, cells, refused(4, 2, 6), refused(4, 2, 6)),
        row(good, no_head, refused(2, 1, 2), refused(2, 1, 2)),
        row(two, promises, refused(2, 2, 4), refused(2, 2, 4)),
        row(two, long, refused(1, 0, 0), refused(1, 0, 0)),
        // A site doesn't.
        row(good, sites, Ok(()), refused(25, 1, 9)),
        row(two, sites, Ok(()), refused(25, 2, 9)),
        // The first's sites before the second's, and unchanged.
        row(sites, good, Ok(()), refused(25, 0, 9)),
        row(sites, sites, Ok(()), refused(25, 0, 9)),
        // The second's cells before the first's sites.
        row(sites, cells, refused(4, 1, 6), refused(4, 1, 6)),
        row(sites, no_head, refused(2, 1, 4), refused(2, 1, 4)),
        row(sites, long, refused(1, 0, 0), refused(1, 0, 0)),
        // Nothing is claimed where the image check refuses the first.
        (cells, good, None),
        (no_head, good, None),
        (promises, good, None),
        (long, good, None),
    ];
    for (at, (first, second, answers)) in rows.into_iter().enumerate() {
        let parts = [first, second].map(|image| Part::new(image).unwrap());
        let joined = joined::joined(&parts[0], &parts[1]);
        let expected = joined.map(|part| part.expected);
        let got = expected.as_ref().map(|it| (it.image_check(), it.site_check()));
        assert_eq!(got, answers, "row {at}");
    }
}

/// What is written for two joined images, worked out by hand; and past the limit.
#[test]
fn outputs_by_hand() {
    let known = one_function(&[load_i32(1, 5), load_i32(1, 6)], &[borrow(None)]);
    let names =
        one_function(&[generate::computed(byte::AddI32, 2, 1, 1), ret(Some(2)), label(3)], &[]);
    let parts = [&known, &names].map(|image| Part::new(image).unwrap());
    let one = one_function(&[load_i32(1, 6)], &[borrow(None)]);
    for (first, second, written) in [
        (&parts[0], &parts[1], [&one[..], &names].concat()),
        (&parts[1], &parts[0], [&names[..], &one].concat()),
    ] {
        let joined = joined::joined(first, second).unwrap();
        let success = Success { length: written.len(), num_rewrites: 1, changed: true };
        for operation in [Rewrite, Cleanup, Fuller, Rest] {
            let answer = joined.expected.operation(operation, &joined.image, &joined.image);
            assert_eq!(answer, (Ok(success), &written[..]));
        }
        assert!(joined::check_original(&joined).is_ok());
    }
    // 65,536 bytes together, and one cell more.
    let all = Part::new(&cells::head(7, 0, 0).repeat(MAX_IMAGE / CELL - 2)).unwrap();
    let [two, three] = [2, 3].map(|cells| Part::new(&cells::head(7, 0, 0).repeat(cells)).unwrap());
    let check = |second| joined::joined(&all, second).unwrap().expected.site_check();
    assert_eq!(check(&two), Ok(()));
    assert_eq!(check(&three), Err(Refusal { number: 1, position: 0, detail: 0 }));
}

/// The original's answers on a joined image are compared with those on the two.
#[test]
fn the_original_is_compared() {
    let [good, sites, _] = rows();
    let folds = one_function(&[load_i32(1, 5), load_i32(1, 6)], &[]);
    let [good, sites, folds] = [good, sites, folds].map(|image| Part::new(&image).unwrap());
    for (first, second) in [(&good, &folds), (&good, &sites), (&sites, &good), (&folds, &folds)] {
        let right = joined::joined(first, second).unwrap();
        assert!(joined::check_original(&right).is_ok());
        // The same answers don't do for an image with a function more in front.
        let other = Part { image: [&good.image[..], &right.image].concat(), ..right };
        assert!(joined::check_original(&other).is_err());
    }
}

/// Each function's end but the last is a cut; a refused image has none.
#[test]
fn cuts() {
    let [good, sites, _] = rows();
    let image = [&good[..], &one_function(&[], &[borrow(None)]), &good].concat();
    let lengths = |image: &[u8]| -> Vec<[usize; 2]> {
        let cuts = joined::cuts(image).unwrap();
        cuts.iter().map(|cut| [cut[0].image.len(), cut[1].image.len()]).collect()
    };
    assert_eq!(lengths(&image), [[2 * CELL, 4 * CELL], [4 * CELL, 2 * CELL]]);
    assert!(lengths(&good).is_empty() && lengths(&[]).is_empty());
    // In a refused image there is nothing to cut; if there were, both parts would have to be accepted.
    let refused = [&good[..], &sites, &good].concat();
    assert!(lengths(&refused).is_empty());
    assert!(joined::cut(&refused, 2 * CELL).is_err() && joined::cut(&refused, 6 * CELL).is_err());
    assert!(joined::cut(&image, 2 * CELL).is_ok() && joined::cut(&image, 3 * CELL).is_err());
}

/// Every refusal has an image.
#[test]
fn one_a_refusal() {
    let images = generate::one_a_refusal();
    let refusals = images.iter().map(|image| model::site_check(image).unwrap_err().number);
    let mut numbers: Vec<u8> = refusals.collect();
    numbers.sort();
    numbers.dedup();
    assert_eq!(numbers, [1, 2, 3, 4, 11, 12, 13, 14, 21, 22, 23, 24, 25, 26]);
}
