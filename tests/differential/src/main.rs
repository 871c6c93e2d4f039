//! Runs the comparison; or makes or replays a sample of the original's and the model's
//! answers; or compares what the printing program writes.

use differential::answers::{Operation, Operations};
use differential::compare::{self, hexadecimal, Difference};
use differential::driver::{
    self, Count, Factors, Found, Groups, Lent, Occurred, Outcome, Packing, Released, Rests,
    Sealings,
};
use differential::factors::{self, TURNS};
use differential::model::Model;
use differential::packed::FAULTS;
use differential::pages::SHAPES;
use differential::program::{self, Program};
use differential::random::{mix, Random};
use differential::runs::{self, Outside};
use differential::sealing::CASES;
use differential::{cells, generate, release, sample, table, words};
use std::process::ExitCode;
use std::time::{SystemTime, UNIX_EPOCH};

struct Options {
    seed: u64,
    seconds: u64,
    threads: usize,
    sample: Option<String>,
    replay: Option<String>,
    program: Option<String>,
    word: Option<String>,
}

const USAGE: &str = "\
usage: [--seed N] [--seconds N] [--threads N]
       [--seed N] --sample FILE
       --replay FILE
       [--seed N] [--seconds N] --program FILE
           [--word rewrite|fuller|rest|seal|pages|pack|unpack|release|factor]";

fn options() -> Result<Options, String> {
    let now = SystemTime::now().duration_since(UNIX_EPOCH).unwrap_or_default();
    let threads = std::thread::available_parallelism().map_or(1, |count| count.get());
    let seed = mix(now.as_nanos() as u64);
    let mut options = Options {
        seed,
        seconds: 60,
        threads,
        sample: None,
        replay: None,
        program: None,
        word: None,
    };
    let mut words = std::env::args().skip(1);
    while let Some(word) = words.next() {
        let value = words.next().ok_or_else(|| format!("{word} needs a value"))?;
        let number = || value.parse::<u64>().map_err(|_| format!("{word}: {value} is no number"));
        match word.as_str() {
            "--seed" => options.seed = number()?,
            "--seconds" => options.seconds = number()?,
            "--threads" => options.threads = number()?.max(1) as usize,
            "--sample" => options.sample = Some(value),
            "--replay" => options.replay = Some(value),
            "--program" => options.program = Some(value),
            "--word" => options.word = Some(value),
            _ => return Err(format!("{word} isn't known")),
        }
    }
    Ok(options)
}

fn main() -> ExitCode {
    if std::env::args().any(|word| word == "--help") {
        println!("{USAGE}");
        return ExitCode::SUCCESS;
    }
    let options = match options() {
        Ok(options) => options,
        Err(error) => {
            eprintln!("{error}\n{USAGE}");
            return ExitCode::from(2);
        }
    };
    let done = match (&options.sample, &options.replay, &options.program) {
        (Some(file), _, _) => sample::write(file, options.seed),
        (_, Some(file), _) => replay(file),
        (_, _, Some(file)) => {
            println!("seed {}", options.seed);
            program(file, &options)
        }
        _ => compare(&options),
    };
    match done {
        Ok(text) => {
            println!("{text}");
            ExitCode::SUCCESS
        }
        Err(error) => {
            println!("{error}");
            ExitCode::FAILURE
        }
    }
}

fn program(file: &str, options: &Options) -> Result<String, String> {
    let Options { seed, seconds, .. } = *options;
    if options.word.as_deref() == Some("factor") {
        let counts = words::compare(|words| words::run(file, words), seed, seconds)?;
        println!("{}", counts.lines());
        return Ok(format!(
            "{file}: {} inputs, each with the texts that it must have",
            counts.inputs
        ));
    }
    program::compare(Program::new(file, options.word.as_deref())?, seed, seconds)
}

fn replay(file: &str) -> Result<String, String> {
    let bytes = std::fs::read(file).map_err(|error| format!("{file}: {error}"))?;
    let mut lines = Vec::new();
    for subject in subjects() {
        let cases = sample::replay(&bytes, subject)?;
        lines.push(format!("{}: {cases} cases as in the sample", subject.name()));
    }
    Ok(lines.join("\n"))
}

/// Without the premise on labels the claims fail: the sent function loops, the returned one ends.
fn premise_is_needed() -> Result<(), String> {
    let sent = [generate::label(1), generate::jmp(1), generate::label(1)];
    let image = generate::one_function(&sent, &[]);
    let expected = compare::expected(&image).map_err(|difference| difference.what)?;
    if runs::labels_at_one_place(&sent) {
        return Err("the premise holds of Label 1, Jmp 1, Label 1".into());
    }
    let registers = runs::any_registers(&mut Random::new(1), 0);
    let outside = Outside { seed: 1, stops: 0, misfits: 0 };
    for (operation, labels) in [(Operation::Rewrite, 2), (Operation::Rest, 1)] {
        let written = expected.written(operation).ok_or("refused")?;
        let returned = cells::functions(written).next().ok_or("no function")?;
        if returned.instrs != vec![generate::label(1); labels] {
            return Err(format!("{operation:?}: Label 1, Jmp 1, Label 1 isn't {labels} labels"));
        }
        if runs::claims(&sent, returned.instrs, &registers, outside, 40).is_ok() {
            return Err(format!("{operation:?}: the claims hold of Label 1, Jmp 1, Label 1"));
        }
    }
    Ok(())
}

/// The model, and the proved library where it is linked.
fn subjects() -> Vec<&'static dyn Operations> {
    #[cfg(feature = "library")]
    return vec![&differential::library::Library, &Model];
    #[cfg(not(feature = "library"))]
    return vec![&Model];
}

fn compare(options: &Options) -> Result<String, String> {
    println!("seed {}", options.seed);
    let commands = table::check_against_text()
        .map_err(|error| format!("DIFFERENCE in the table of commands: {error}"))?;
    println!("table: {commands} commands as in the original's text");
    premise_is_needed().map_err(|error| format!("DIFFERENCE in the running rule: {error}"))?;
    println!("runs: Label 1, Jmp 1, Label 1 differs from what is returned, as it must");

    let subjects = subjects();
    let pairs = factors::check_on_few_bits()
        .map_err(|error| format!("DIFFERENCE between the model and a search: {error}"))?;
    println!("factors: {pairs} pairs on few bits, as by a search");
    search(&subjects, options.seed).map_err(|Difference { what, expected, got }| {
        format!("DIFFERENCE: {what}\nexpected: {expected}\n{got}")
    })?;
    let outcome =
        driver::compare(Groups::All, &subjects, options.seed, options.seconds, options.threads);
    report(&outcome);
    let Some(found) = outcome.found else {
        let names: Vec<&str> = subjects.iter().map(|subject| subject.name()).collect();
        return Ok(format!(
            "no difference between the original and: {}\n\
             the rewrite until it rests: by the original again and again\n\
             the fuller rewrite: by the model, and by the original as far as it decides\n\
             the sealing check: by the model, and by the original's validators of all functions as one\n\
             the pages and the packed form: by the model\n\
             the releases: by the original and the model, image by image\n\
             the factors: by the model, and by a search as far as it goes",
            names.join(", ")
        ));
    };
    let Found { group, subject, images, lent, difference } = found;
    println!("DIFFERENCE: {}; group {group}, seed {}", difference.what, options.seed);
    if let [_, _] = images[..] {
        println!("two images, joined in this order");
    }
    let name = match lent {
        Lent::Unpacked(_) => "packed form",
        Lent::Release(_) | Lent::ReleaseLaw(_) => "release",
        _ => "image",
    };
    for image in &images {
        println!("{name}, {} bytes", image.len());
        println!("{}", hexadecimal(image));
    }
    match lent {
        Lent::Output(more) => println!("lent output longer than the image by {more}"),
        Lent::Pages(more) => println!("lent buffer longer than the pages by {more}"),
        Lent::Packed(more) => println!("lent output longer than the packed form by {more}"),
        Lent::Unpacked(more) => println!("lent output longer than what is unpacked by {more}"),
        Lent::Release((out, answers)) => {
            println!("lent output longer than the release by {out}");
            println!("lent answers longer than 12 bytes an image by {answers}");
        }
        Lent::Law(_) | Lent::RestLaw | Lent::SealingLaw | Lent::ReleaseLaw(_) | Lent::Number => {}
    }
    println!("expected: {}", difference.expected);
    Err(format!("{subject}: {}", difference.got))
}

/// Holds the subjects against searches over all i32: for the pairs of `tests/factors`, and for a few
/// random ones.
fn search(subjects: &[&'static dyn Operations], seed: u64) -> Result<(), Difference> {
    let check = |leaf, wanted, factor, found| {
        subjects.iter().try_for_each(|subject| {
            factors::check(*subject, leaf, wanted, factor, found).map_err(|difference| {
                let got = format!("{}: {}", subject.name(), difference.got);
                Difference { got, ..difference }
            })
        })
    };
    let searched = factors::searched();
    for (leaf, wanted, factor, found) in &searched {
        check(*leaf, *wanted, *factor, *found)?;
    }
    println!("factors: {} pairs, as by a search over all i32", searched.len());
    let pairs = factors::pairs_to_search(&mut Random::new(mix(seed)));
    let found = std::thread::scope(|scope| {
        let search =
            |(leaf, wanted, factor)| scope.spawn(move || factors::search(leaf, wanted, factor));
        pairs.map(search).map(|found| found.join().unwrap())
    });
    for ((leaf, wanted, factor), found) in pairs.into_iter().zip(found) {
        check(leaf, wanted, factor, found)?;
        let found = found.map_or("none".into(), |found| found.to_string());
        println!("factors: {leaf:?}, {wanted} by {factor}: {found}, as by a search over all i32");
    }
    Ok(())
}

fn report(outcome: &Outcome) {
    let mut total = Count { name: "all", ..Count::default() };
    // Differing: where the fuller rewrite writes other cells than the default one. Third: where the
    // rewrite until it rests takes a third round.
    let columns = ["images", "accepted", "differing", "third", "comparisons", "pages", "packed"];
    let columns = columns.map(|column| format!("{column:>12}"));
    println!("{:20} {}", "group", columns.join(" "));
    let line = |count: &Count| {
        let Count { name, images, accepted, differing, third, comparisons, pages, packed } = count;
        let numbers = [images, accepted, differing, third, comparisons, pages, packed];
        println!("{name:20} {}", numbers.map(|number| format!("{number:>12}")).join(" "));
    };
    for count in &outcome.counts {
        total.images += count.images;
        total.accepted += count.accepted;
        total.differing += count.differing;
        total.third += count.third;
        total.comparisons += count.comparisons;
        total.pages += count.pages;
        total.packed += count.packed;
        line(count);
    }
    line(&total);
    println!("refusals by number  {}", by_number(&outcome.refusals));
    let Rests { rounds, longer } = &outcome.rests;
    println!("rounds until rest   {}; the first longer than the last: {longer}", by_number(rounds));
    let Sealings { cases, gone } = &outcome.sealings;
    println!("sealing, by case    {}", by_name(CASES.map(|(name, _)| name), cases));
    println!("refused by 34 or 35, and not after the default rewrite: {gone}");
    let Occurred { too_short, longest, shapes } = &outcome.occurred;
    println!("pages in a buffer too short (30) {too_short}, longest pages {longest}");
    println!("functions on pages  {}", by_name(SHAPES.map(|(name, _)| name), shapes));
    let Packing { packed, unpacked, forms, faults } = &outcome.packing;
    println!("packed, by answer   {}", by_number(packed));
    println!("unpacked, by answer {}", by_number(unpacked));
    println!("packed forms {forms}; {}", by_name(FAULTS.map(|(name, _)| name), faults));
    let Released { releases, images, refused, comparisons, cases } = &outcome.released;
    println!("releases {releases}, images in those not refused {images}, refused ones {refused}");
    let cases = by_name(release::CASES.map(|(name, _)| name), cases);
    println!("releases, {comparisons} comparisons; {cases}");
    let Factors { edges, random, turns } = &outcome.factors;
    println!("factors of pairs    edges: {edges}, random: {random}");
    println!("factors by case     {}", by_name(TURNS.map(|(name, _)| name), turns));
    println!("pairs of runs {}, entries of their records {}", outcome.runs, outcome.entries);
    let seconds = outcome.time.as_secs_f64();
    println!("{seconds:.1} s, {:.0} images a second", total.images as f64 / seconds);
}

/// How often each number came.
fn by_number(counts: &[u64]) -> String {
    let counts = counts.iter().enumerate().filter(|(_, count)| **count > 0);
    let counts: Vec<String> = counts.map(|(number, count)| format!("{number}: {count}")).collect();
    counts.join(", ")
}

/// How often each of these came.
fn by_name<const N: usize>(names: [&str; N], counts: &[u64; N]) -> String {
    let counts = names.iter().zip(counts).map(|(name, count)| format!("{name}: {count}"));
    counts.collect::<Vec<String>>().join(", ")
}
