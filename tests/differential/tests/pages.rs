//! Shows that the harness finds wrong pages (document 02, W1), and holds the model's against lines
//! written out by hand.

#[macro_use]
mod common;

use differential::answers::{Operation, Operations, Refusal, Reply};
use differential::cells::{self, Cell, Function, CELL, MAX_IMAGE};
use differential::compare::{self, GUARD, PAGES};
use differential::driver::{self, Groups, Lent};
use differential::factors::Leaf;
use differential::generate::{
    self, borrow, computed, load_i32, make_record, one_function, ret, store_var, write,
};
use differential::legacy_lowering::{byte, OwnershipPathEventKind, COMMANDS};
use differential::model::{self, Model};
use differential::pages::{self, EVENTS, LINE, LONGEST, PAGE, SHAPES, TOO_SHORT};
use differential::program::{self, Text};
use differential::random::Random;
use differential::table;

/// A program that answers as the model does but for one fault in its pages.
#[derive(Debug, Clone, Copy)]
struct Wrong(Fault);

#[derive(Debug, Clone, Copy, PartialEq)]
enum Fault {
    NoFault,
    // Pages.
    PageOf(usize),
    PageWhereNoCellFollows,
    EventsBeginAPage,
    PagesByInstructionsAlone,
    PageNotReset,
    PagesFromZero,
    EmptyFunctionWithoutHeading,
    EmptyImageWithAHeading,
    HeadGivenALine,
    EventsFirst,
    // Headings.
    NameBlankFilled,
    NameWithoutZeros,
    NameInFourDigits,
    NameByItsFirstByte,
    NameTurned,
    NameIsThePosition,
    PageBlankFilled,
    PageWithoutZeros,
    HeadingNotFilled,
    HeadingWithoutLineFeed,
    // Lines.
    LineOf(usize),
    LastLineWithoutLineFeed,
    CarriageReturns,
    FormFeeds,
    PositionsRestartAtEvents,
    PositionsRestartOnPages,
    PositionsGoOn,
    PositionsInTheImage,
    PositionsFromOne,
    PositionsInAByte,
    PositionZeroFilled,
    PositionFromTheLeft,
    KindIn(usize),
    KindFromTheRight,
    KindOfTheNextCommand,
    KindsInAlphabeticalOrder,
    EventByTheCommandTable,
    BorrowAndWriteExchanged,
    LowerCaseDigits,
    FirstFifteenBytes,
    AllBytes,
    FourteenBytes,
    SpareZerosDropped,
    BytesTurned,
    DigitsTurned,
    RewrittenFirst,
    // Answers.
    FiveForThirty,
    ThirtyBeforeTheCells,
    ThirtyBeforeTheSites,
    ThirtyWithTheLength,
    ThirtyIfTheyFitJust,
    ThirtyUnlessTheLongestFit,
    RoomWithoutFurtherHeadings,
    WritesWhatFits,
    TouchesTheFirstByteOnThirty,
    TouchesTheFirstByteOnARefusal,
    LeavesTheSites,
    RefusesInBytes,
    EmptyImageRefused,
    TouchesAByteBehind,
    ClearsTheRest,
    WritesNothing,
    LengthLessALine,
    LengthInLines,
    LengthInTwoBytes,
    SecondIsTheNumberOfLines,
}
use Fault::*;

const FAULTS: [Fault; 71] = [
    PageOf(48),
    PageOf(50),
    PageOf(57),
    PageWhereNoCellFollows,
    EventsBeginAPage,
    PagesByInstructionsAlone,
    PageNotReset,
    PagesFromZero,
    EmptyFunctionWithoutHeading,
    EmptyImageWithAHeading,
    HeadGivenALine,
    EventsFirst,
    NameBlankFilled,
    NameWithoutZeros,
    NameInFourDigits,
    NameByItsFirstByte,
    NameTurned,
    NameIsThePosition,
    PageBlankFilled,
    PageWithoutZeros,
    HeadingNotFilled,
    HeadingWithoutLineFeed,
    LineOf(56),
    LineOf(58),
    LastLineWithoutLineFeed,
    CarriageReturns,
    FormFeeds,
    PositionsRestartAtEvents,
    PositionsRestartOnPages,
    PositionsGoOn,
    PositionsInTheImage,
    PositionsFromOne,
    PositionsInAByte,
    PositionZeroFilled,
    PositionFromTheLeft,
    KindIn(16),
    KindIn(17),
    KindIn(19),
    KindFromTheRight,
    KindOfTheNextCommand,
    KindsInAlphabeticalOrder,
    EventByTheCommandTable,
    BorrowAndWriteExchanged,
    LowerCaseDigits,
    FirstFifteenBytes,
    AllBytes,
    FourteenBytes,
    SpareZerosDropped,
    BytesTurned,
    DigitsTurned,
    RewrittenFirst,
    FiveForThirty,
    ThirtyBeforeTheCells,
    ThirtyBeforeTheSites,
    ThirtyWithTheLength,
    ThirtyIfTheyFitJust,
    ThirtyUnlessTheLongestFit,
    RoomWithoutFurtherHeadings,
    WritesWhatFits,
    TouchesTheFirstByteOnThirty,
    TouchesTheFirstByteOnARefusal,
    LeavesTheSites,
    RefusesInBytes,
    EmptyImageRefused,
    TouchesAByteBehind,
    ClearsTheRest,
    WritesNothing,
    LengthLessALine,
    LengthInLines,
    LengthInTwoBytes,
    SecondIsTheNumberOfLines,
];

// ---- Wrong pages ----

/// What stands before a function.
#[derive(Default)]
struct Before {
    functions: usize,
    /// With the heads, and without.
    cells: usize,
    others: usize,
    pages: usize,
}

/// The pages with a fault, or without.
fn laid_out(fault: Fault, image: &[u8]) -> Vec<u8> {
    let (rewritten, _) = match fault {
        RewrittenFirst => model::rewritten(Operation::Rewrite, image),
        _ => (image.to_vec(), 0),
    };
    let mut text = String::new();
    let mut before = Before::default();
    if fault == EmptyImageWithAHeading && image.is_empty() {
        text += &heading(fault, 0, 1);
    }
    for function in cells::functions(&rewritten) {
        let pages = function_pages(fault, &function, &before);
        before.functions += 1;
        before.others += function.instrs.len() + function.events.len();
        before.cells = before.functions + before.others;
        before.pages += pages.len();
        text.extend(pages);
    }
    if fault == LastLineWithoutLineFeed {
        text.pop();
    }
    text.into_bytes()
}

/// The text of each page of a function.
fn function_pages(fault: Fault, function: &Function, before: &Before) -> Vec<String> {
    let lines = cell_lines(fault, function, before);
    let instrs = function.instrs.len();
    let size = if let PageOf(size) = fault { size } else { PAGE };
    let mut pages: Vec<Vec<String>> = match fault {
        EventsBeginAPage => {
            let (instrs, events) = lines.split_at(instrs);
            instrs.chunks(size).chain(events.chunks(size)).map(<[String]>::to_vec).collect()
        }
        PagesByInstructionsAlone if instrs > 0 => {
            let (instrs, events) = lines.split_at(instrs);
            let mut pages: Vec<_> = instrs.chunks(size).map(<[String]>::to_vec).collect();
            pages.last_mut().unwrap().extend_from_slice(events);
            pages
        }
        PagesByInstructionsAlone if !lines.is_empty() => vec![lines.clone()],
        _ => lines.chunks(size).map(<[String]>::to_vec).collect(),
    };
    let full = !lines.is_empty() && lines.len().is_multiple_of(size);
    if lines.is_empty() && fault != EmptyFunctionWithoutHeading
        || full && fault == PageWhereNoCellFollows
    {
        pages.push(Vec::new());
    }
    let first = match fault {
        PageNotReset => before.pages + 1,
        PagesFromZero => 0,
        _ => 1,
    };
    let name = match fault {
        NameIsThePosition => before.functions as u16,
        NameTurned => function.name.swap_bytes(),
        NameByItsFirstByte => function.name % 256,
        NameInFourDigits => function.name % 10_000,
        _ => function.name,
    };
    let page = |(at, lines): (usize, &Vec<String>)| {
        let feed = if fault == FormFeeds && at > 0 { "\x0C" } else { "" };
        format!("{feed}{}{}", heading(fault, name, first + at), lines.concat())
    };
    pages.iter().enumerate().map(page).collect()
}

fn heading(fault: Fault, name: u16, page: usize) -> String {
    let name = match fault {
        NameBlankFilled => format!("{name:5}"),
        NameWithoutZeros => name.to_string(),
        _ => format!("{name:05}"),
    };
    let page = match fault {
        PageBlankFilled => format!("{page:3}"),
        PageWithoutZeros => page.to_string(),
        _ => format!("{page:03}"),
    };
    let heading = format!("function {name} page {page}");
    match fault {
        HeadingNotFilled => heading + "\n",
        HeadingWithoutLineFeed => format!("{heading:57}"),
        _ => line(fault, heading),
    }
}

fn line(fault: Fault, text: String) -> String {
    match fault {
        LineOf(width) => format!("{text:width$.width$}\n"),
        CarriageReturns => format!("{text:57}\r\n"),
        _ => format!("{text:57}\n"),
    }
}

fn cell_lines(fault: Fault, function: &Function, before: &Before) -> Vec<String> {
    let instrs = function.instrs.iter().map(|cell| (command(fault, cell), cell));
    let events = function.events.iter().map(|cell| (event(fault, cell), cell));
    let mut listed: Vec<(&str, &Cell)> = match fault {
        EventsFirst => events.chain(instrs).collect(),
        _ => instrs.chain(events).collect(),
    };
    let head = cells::head(function.name, function.instrs.len(), function.events.len());
    if fault == HeadGivenALine {
        listed.insert(0, ("Head", &head));
    }
    let lines = listed.into_iter().enumerate().map(|(at, (kind, cell))| {
        let position = match fault {
            PositionsRestartAtEvents => at.checked_sub(function.instrs.len()).unwrap_or(at),
            PositionsRestartOnPages => at % PAGE,
            PositionsGoOn => before.others + at,
            PositionsInTheImage => before.cells + 1 + at,
            PositionsFromOne => at + 1,
            PositionsInAByte => at % 256,
            _ => at,
        };
        cell_line(fault, position, kind, cell)
    });
    lines.collect()
}

fn cell_line(fault: Fault, position: usize, kind: &str, cell: &Cell) -> String {
    let position = match fault {
        PositionZeroFilled => format!("{position:05}"),
        PositionFromTheLeft => format!("{position:<5}"),
        _ => format!("{position:5}"),
    };
    let kind = match fault {
        KindIn(places) => format!("{kind:places$}"),
        KindFromTheRight => format!("{kind:>18}"),
        _ => format!("{kind:18}"),
    };
    line(fault, format!("{position}  {kind}  {}", digits(fault, cell)))
}

fn digits(fault: Fault, cell: &Cell) -> String {
    let mut bytes = match fault {
        AllBytes => cell.to_vec(),
        FirstFifteenBytes => cell[..15].to_vec(),
        FourteenBytes => cell[1..15].to_vec(),
        SpareZerosDropped => {
            let end = table::layout(cell[0]).map_or(cells::EVENT_END, |layout| layout.end);
            cell[1..end].to_vec()
        }
        _ => cell[1..].to_vec(),
    };
    if fault == BytesTurned {
        bytes.reverse();
    }
    let digits = bytes.into_iter().map(|byte| match fault {
        LowerCaseDigits => format!("{byte:02x}"),
        DigitsTurned => format!("{:02X}", byte.rotate_left(4)),
        _ => format!("{byte:02X}"),
    });
    digits.collect()
}

fn command(fault: Fault, cell: &Cell) -> &'static str {
    let at = cell[0] as usize - 1;
    match fault {
        KindOfTheNextCommand => COMMANDS[(at + 1) % COMMANDS.len()].name,
        KindsInAlphabeticalOrder => {
            let mut names: Vec<&str> = COMMANDS.iter().map(|command| command.name).collect();
            names.sort();
            names[at]
        }
        _ => COMMANDS[at].name,
    }
}

fn event(fault: Fault, cell: &Cell) -> &'static str {
    let kind = cell[0] as usize;
    match fault {
        EventByTheCommandTable => COMMANDS[kind].name,
        BorrowAndWriteExchanged => ["Write", "Borrow"][kind],
        _ => ["Borrow", "Write"][kind],
    }
}

// ---- Wrong answers ----

fn answer(fault: Fault, image: &[u8], out: &mut [u8]) -> Reply {
    let length = image.len() / CELL * LINE;
    if fault == ThirtyBeforeTheCells && out.len() < length {
        return TOO_SHORT;
    }
    let image_check = model::image_check(image);
    if fault == ThirtyBeforeTheSites
        && image_check.is_ok()
        && out.len() < laid_out(NoFault, image).len()
    {
        return TOO_SHORT;
    }
    let checked = if fault == LeavesTheSites { image_check } else { model::site_check(image) };
    if let Err(refusal) = checked {
        return refused(fault, refusal, out);
    }
    if fault == EmptyImageRefused && image.is_empty() {
        return Reply { number: 2, first: 0, second: 0 };
    }
    let pages = laid_out(fault, image);
    let room = match fault {
        ThirtyIfTheyFitJust => pages.len() + 1,
        ThirtyUnlessTheLongestFit => LONGEST,
        RoomWithoutFurtherHeadings => length,
        _ => pages.len(),
    };
    if out.len() < room {
        return too_short(fault, &pages, out);
    }
    if fault != WritesNothing {
        let fits = pages.len().min(out.len());
        out[..fits].copy_from_slice(&pages[..fits]);
    }
    let rest = &mut out[pages.len().min(room)..];
    match (fault, rest.first_mut()) {
        (TouchesAByteBehind, Some(byte)) => *byte ^= 1,
        (ClearsTheRest, _) => rest.fill(0),
        _ => {}
    }
    let length = match fault {
        LengthLessALine => pages.len().saturating_sub(LINE),
        LengthInLines => pages.len() / LINE,
        LengthInTwoBytes => pages.len() % 65_536,
        _ => pages.len(),
    };
    let second = if fault == SecondIsTheNumberOfLines { pages.len() / LINE } else { 0 };
    Reply { number: 0, first: length, second }
}

fn refused(fault: Fault, refusal: Refusal, out: &mut [u8]) -> Reply {
    let reply = Reply::from(refusal);
    match (fault, out.first_mut()) {
        (TouchesTheFirstByteOnARefusal, Some(byte)) => *byte ^= 1,
        (RefusesInBytes, _) => return Reply { second: reply.second * CELL, ..reply },
        _ => {}
    }
    reply
}

fn too_short(fault: Fault, pages: &[u8], out: &mut [u8]) -> Reply {
    match (fault, out.first_mut()) {
        (FiveForThirty, _) => return Reply { number: 5, ..TOO_SHORT },
        (ThirtyWithTheLength, _) => return Reply { first: pages.len(), ..TOO_SHORT },
        (TouchesTheFirstByteOnThirty, Some(byte)) => *byte ^= 1,
        (WritesWhatFits, _) => {
            let fits = out.len() / LINE * LINE;
            out[..fits].copy_from_slice(&pages[..fits]);
        }
        _ => {}
    }
    TOO_SHORT
}

impl Operations for Wrong {
    checks_and_rewrites_of_the_model!();
    packing_of_the_model!();
    fn pages(&self, image: &[u8], out: &mut [u8]) -> Reply {
        answer(self.0, image, out)
    }
    releases_of_the_model!();
    fn factor(&self, leaf: Leaf, wanted: i32, factor: i32, other: &mut i32) -> usize {
        Model.factor(leaf, wanted, factor, other)
    }
}

#[test]
fn every_wrong_page_is_found() {
    for fault in FAULTS {
        let outcome = driver::compare(Groups::All, &[&Wrong(fault)], 1, 0, 1);
        let found = outcome.found.unwrap_or_else(|| panic!("{fault:?} isn't found"));
        let cells = found.images.concat().len().div_ceil(CELL);
        let what = &found.difference.what;
        println!("{fault:?}: {}: {what}, {cells} cells, {:?}", found.group, found.lent);
        assert!(what.starts_with("Pages") && matches!(found.lent, Lent::Pages(_)), "{fault:?}");
        // These show only where a page or a byte is full.
        let most = match fault {
            PageOf(size) => size.min(PAGE) + 2,
            PageWhereNoCellFollows
            | PagesByInstructionsAlone
            | PositionsRestartOnPages
            | RoomWithoutFurtherHeadings
            | FormFeeds => PAGE + 2,
            PositionsInAByte => 258,
            LengthInTwoBytes => MAX_IMAGE / CELL,
            _ => 4,
        };
        assert!(cells <= most, "{fault:?} isn't shrunk: {cells} cells");
    }
}

/// Images of all sorts that the site check accepts.
fn accepted() -> Vec<Vec<u8>> {
    let mut random = Random::new(1);
    let groups = generate::exhaustive();
    let ends = groups.iter().find(|group| group.name == "page ends").unwrap();
    let ends = (0..ends.count).step_by(7).map(|index| (ends.image)(index));
    let paged = (0..100).map(|_| generate::paged(&mut random));
    let mut images: Vec<Vec<u8>> = ends.chain(paged).collect();
    images.extend((0..100).map(|_| generate::any_image(&mut random)));
    images.extend((0..3).map(|_| generate::longest_pages(&mut random)));
    images.retain(|image| model::site_check(image).is_ok());
    images
}

/// Wrong pages are wrong by their fault alone.
#[test]
fn no_fault_is_right() {
    for image in accepted() {
        assert!(laid_out(NoFault, &image) == pages::pages(&image));
        let expected = compare::expected(&image).unwrap();
        let length = pages::pages(&image).len();
        for length in [0, length.saturating_sub(1), length, length + 1] {
            let around = vec![3; length + 2 * GUARD];
            assert!(expected.check_pages(&Wrong(NoFault), &image, &around).is_ok());
        }
    }
}

/// An image is read from its own pages and from no other text.
#[test]
fn read_from_its_own_pages_alone() {
    let images = accepted();
    for image in &images {
        assert!(pages::read(&pages::pages(image)).as_ref() == Some(image));
    }
    for fault in FAULTS {
        for image in images.iter().filter(|image| image.len() < 4000) {
            let text = laid_out(fault, image);
            let right = text == pages::pages(image);
            assert_eq!(pages::read(&text).as_ref() == Some(image), right, "{fault:?}");
        }
    }
}

/// A bit of an accepted image changed, if it stays accepted, changes its pages.
#[test]
fn another_bit_gives_other_pages() {
    let mut random = Random::new(1);
    let mut changed = 0;
    for image in accepted().iter().filter(|image| !image.is_empty() && image.len() < 4000) {
        let right = pages::pages(image);
        for _ in 0..50 {
            let mut other = image.clone();
            other[random.below(image.len())] ^= 1 << random.below(8);
            if model::site_check(&other).is_ok() {
                assert!(pages::pages(&other) != right);
                changed += 1;
            }
        }
    }
    assert!(changed > 1000, "{changed}");
}

/// A function's pages, line by line.
#[test]
fn by_hand() {
    let instrs = [
        load_i32(1, 5),
        computed(byte::AddI32, 2, 1, 1),
        store_var(2, Some(0x0102_0304), Some(0xFFFE_FDFC)),
        ret(Some(2)),
    ];
    let events = [write(0xFFFE_FDFC), borrow(Some(0x0102_0304))];
    let mut image = one_function(&instrs, &events);
    cells::push_function(&mut image, 65_535, &[], &[]);
    cells::push_function(&mut image, 300, &[], &[borrow(None)]);
    let lines = [
        "function 00007 page 001                                  \n",
        "    0  LoadI32             010005000000000000000000000000\n",
        "    1  AddI32              020001000100000000000000000000\n",
        "    2  StoreVar            09000200010403020101FCFDFEFF00\n",
        "    3  Ret                 010200000000000000000000000000\n",
        "    4  Write               000000000001FCFDFEFF0600000000\n",
        "    5  Borrow              010403020100000000000600000000\n",
        "function 65535 page 001                                  \n",
        "function 00300 page 001                                  \n",
        "    0  Borrow              000000000000000000000600000000\n",
    ];
    assert_eq!(program::text(Text::Pages, &image).unwrap(), lines.concat());
}

/// How many lines functions of some cells have, and where their headings are.
#[test]
fn pages_by_hand() {
    let rows: [(usize, &[usize]); 8] = [
        (0, &[0]),
        (1, &[0]),
        (48, &[0]),
        (49, &[0]),
        (50, &[0, 50]),
        (98, &[0, 50]),
        (99, &[0, 50, 100]),
        (147, &[0, 50, 100]),
    ];
    for (cells, headings) in rows {
        for instrs in [0, 1, 20, 48, 49, 50, cells] {
            let instrs = instrs.min(cells);
            let events = vec![borrow(None); cells - instrs];
            let image = one_function(&vec![ret(None); instrs], &events);
            let text = program::text(Text::Pages, &image).unwrap();
            let lines: Vec<&str> = text.lines().collect();
            assert_eq!(lines.len(), cells + headings.len());
            let found = (0..lines.len()).filter(|at| lines[*at].starts_with("function"));
            assert_eq!(found.collect::<Vec<_>>(), headings);
            for (page, at) in headings.iter().enumerate() {
                assert_eq!(lines[*at].trim_end(), format!("function 00007 page 00{}", page + 1));
                assert!(cells == 0 || lines[at + 1].starts_with(&format!("{:5}  ", page * 49)));
            }
        }
    }
}

/// What is refused, and what comes first: image, lent length, answer.
#[test]
fn refusals_by_hand() {
    let good = one_function(&[ret(None)], &[]);
    let sites = [&good[..], &one_function(&[make_record(1, Some(9))], &[])].concat();
    let cell = [&sites[..], &one_function(&[load_i32(1024, 5)], &[])].concat();
    let reply = |number, first, second| Reply { number, first, second };
    let rows = [
        (&good, 2 * LINE, reply(0, 116, 0)),
        (&good, 2 * LINE - 1, reply(30, 0, 0)),
        (&good, 0, reply(30, 0, 0)),
        (&sites, 0, reply(24, 1, 9)),
        (&cell, 0, reply(4, 2, 5)),
        (&vec![0; 17], 0, reply(1, 0, 0)),
        (&vec![], 0, reply(0, 0, 0)),
        (&vec![], 5, reply(0, 0, 0)),
    ];
    for (image, lent, reply) in rows {
        let mut out = vec![7; lent];
        assert_eq!(Model.pages(image, &mut out), reply);
        let written = if reply.number == 0 { reply.first } else { 0 };
        assert!(out[written..].iter().all(|byte| *byte == 7));
        assert_eq!(compare::expected(image).unwrap().pages(lent).0, reply);
    }
}

#[test]
fn the_model_agrees_for_every_buffer_length() {
    let image = one_function(&[load_i32(1, 5), ret(Some(1))], &[borrow(None)]);
    let expected = compare::expected(&image).unwrap();
    for length in 0..6 * LINE {
        let around = vec![3; length + 2 * GUARD];
        assert!(expected.check_pages(&Model, &image, &around).is_ok());
    }
}

/// No byte but the pages' may change, the guards' neither.
#[test]
fn guards() {
    let written = [7; LINE];
    let mut before = vec![3; LINE + 2 * GUARD + 5];
    let mut after = before.clone();
    after[GUARD..GUARD + LINE].copy_from_slice(&written);
    assert!(compare::check_lent(&PAGES, &written, &before, &after).is_ok());
    assert!(compare::check_lent(&PAGES, &[], &before, &after).is_err());
    for at in 0..before.len() {
        after[at] ^= 1;
        assert!(compare::check_lent(&PAGES, &written, &before, &after).is_err(), "{at}");
        after[at] ^= 1;
    }
    before[GUARD] = 0;
    assert!(compare::check_lent(&PAGES, &written, &before, &after).is_ok());
}

/// Each shape is among the images that are made, and the longest pages are 4,179 lines.
#[test]
fn shapes_occur() {
    let mut random = Random::new(2);
    let images: Vec<Vec<u8>> = (0..1000).map(|_| generate::paged(&mut random)).collect();
    for (name, shape) in SHAPES {
        let functions = images.iter().flat_map(|image| cells::functions(image));
        let count = functions.filter(shape).count();
        println!("{name}: {count} functions of {} images", images.len());
        assert!(count >= 20, "{name}: {count}");
    }
    for image in images {
        assert_eq!(model::site_check(&image), Ok(()));
    }
    let groups = generate::exhaustive();
    let ends = groups.iter().find(|group| group.name == "page ends").unwrap();
    for index in 0..ends.count {
        assert_eq!(model::site_check(&(ends.image)(index)), Ok(()));
    }
    for _ in 0..50 {
        let image = generate::longest_pages(&mut random);
        assert_eq!((image.len(), model::site_check(&image)), (MAX_IMAGE, Ok(())));
        assert_eq!(pages::pages(&image).len(), LONGEST);
    }
    assert_eq!(LONGEST, 242_382);
}

/// Every command's name has room in 18 places, and none is an event kind's, whose names are the
/// Rust's.
#[test]
fn names() {
    let kinds = [OwnershipPathEventKind::Borrow, OwnershipPathEventKind::Write];
    assert_eq!(kinds.map(|kind| format!("{kind:?}")), EVENTS);
    for command in COMMANDS {
        assert!(command.name.len() <= 18 && !EVENTS.contains(&command.name), "{}", command.name);
    }
}
