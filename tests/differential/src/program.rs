//! The printing program, run as a user would run it.

use crate::answers::{checked_text, Operation, Refusal};
use crate::cells::MAX_IMAGE;
use crate::compare::{self, hexadecimal, Expected};
use crate::driver::{LONG, LONG_FOR};
use crate::forms;
use crate::generate;
use crate::model;
use crate::numbered;
use crate::packed;
use crate::random::Random;
use crate::release::{Releasing, MAX_RELEASE};
use crate::releases;
use crate::shrink::{shrink, shrink_by};
use std::io::{Read, Write};
use std::process::{Command, Stdio};
use std::time::{Duration, Instant};

/// A program, and the word that it takes, if any.
#[derive(Clone, Copy)]
pub struct Program<'a> {
    file: &'a str,
    word: Option<&'a str>,
    text: Text,
}

/// What a program writes.
#[derive(Debug, Clone, Copy)]
pub enum Text {
    Rewritten(Operation),
    /// What the sealing check answers.
    Sealed,
    Pages,
    /// The packed form of an image, and the image of a packed form: bytes, and a refusal on standard
    /// error.
    Packed,
    Unpacked,
    /// A whole release: bytes, and on standard error a line an image, or the refusal.
    Released,
}

/// What comes on standard output and on standard error.
#[derive(Debug, Clone, PartialEq, Eq)]
pub struct Said {
    pub output: Vec<u8>,
    pub error: Vec<u8>,
}

impl From<Operation> for Text {
    fn from(operation: Operation) -> Text {
        Text::Rewritten(operation)
    }
}

impl<'a> Program<'a> {
    pub fn new(file: &'a str, word: Option<&'a str>) -> Result<Program<'a>, String> {
        let text = match word {
            None | Some("rewrite") => Text::Rewritten(Operation::Rewrite),
            Some("fuller") => Text::Rewritten(Operation::Fuller),
            Some("rest") => Text::Rewritten(Operation::Rest),
            Some("seal") => Text::Sealed,
            Some("pages") => Text::Pages,
            Some("pack") => Text::Packed,
            Some("unpack") => Text::Unpacked,
            Some("release") => Text::Released,
            Some(word) => return Err(format!("no text is known for the word {word}")),
        };
        Ok(Program { file, word, text })
    }
}

/// What a program must write to standard output for an image.
pub fn text(text: impl Into<Text>, image: &[u8]) -> Result<String, String> {
    let said = said(text.into(), image)?;
    String::from_utf8(said.output).map_err(|error| error.to_string())
}

/// What a program must write for its input.
pub fn said(text: Text, input: &[u8]) -> Result<Said, String> {
    let expected = || compare::expected(input).map_err(|difference| difference.what);
    let output = |output: String| Said { output: output.into(), error: Vec::new() };
    match text {
        Text::Rewritten(operation) => Ok(output(rewritten_text(&expected()?, operation, input))),
        Text::Sealed => {
            let answer = expected()?.sealing_check();
            Ok(output(format!("{}\n", checked_text(&answer))))
        }
        Text::Pages => Ok(output(pages_text(&expected()?, input)?)),
        Text::Packed => Ok(bytes(model::image_check(input).map(|()| packed::pack(input)))),
        Text::Unpacked => Ok(bytes(packed::unpack(input).map_err(Refusal::from))),
        Text::Released => released(input),
    }
}

/// The line of a release that is refused.
const RELEASE_REFUSED: &[u8] = b"refused 33\n";

/// The framed output, and of each image its place and what became of it; the buffers are never too
/// short.
fn released(input: &[u8]) -> Result<Said, String> {
    let refused = Said { output: Vec::new(), error: RELEASE_REFUSED.to_vec() };
    if input.len() > MAX_RELEASE {
        return Ok(refused);
    }
    let releasing = Releasing::new(input).map_err(|difference| difference.what)?;
    let Ok(outcomes) = &releasing.outcomes else {
        return Ok(refused);
    };
    let lines = outcomes.iter().enumerate().map(|(place, outcome)| match outcome {
        Ok((_, success)) => format!("{place} rewrites {}\n", success.num_rewrites),
        Err(refusal) => format!("{place} {refusal}\n"),
    });
    let lines: String = lines.collect();
    Ok(Said { output: releasing.both().out.clone(), error: lines.into() })
}

fn bytes(answer: Result<Vec<u8>, Refusal>) -> Said {
    match answer {
        Ok(output) => Said { output, error: Vec::new() },
        Err(refusal) => Said { output: Vec::new(), error: format!("{refusal}\n").into() },
    }
}

/// The pages themselves, or the refusal; the buffer is never too short.
fn pages_text(expected: &Expected, image: &[u8]) -> Result<String, String> {
    if let Err(refusal) = expected.site_check() {
        return Ok(format!("{refusal}\n"));
    }
    let (_, pages) = expected.pages(expected.pages_length(image));
    String::from_utf8(pages.to_vec()).map_err(|error| error.to_string())
}

fn rewritten_text(expected: &Expected, operation: Operation, image: &[u8]) -> String {
    let out = vec![0; image.len()];
    let (answer, written) = expected.operation(operation, image, &out);
    match answer {
        Err(refusal) => format!("{refusal}\n"),
        Ok(success) if written.is_empty() => format!("rewrites {}\n", success.num_rewrites),
        Ok(success) => format!("{}\nrewrites {}\n", hexadecimal(written), success.num_rewrites),
    }
}

/// Runs the program on images of all groups and on bytes that are none.
pub fn compare(program: Program, seed: u64, seconds: u64) -> Result<String, String> {
    let start = Instant::now();
    let mut random = Random::new(seed);
    let mut inputs = 0;
    // Every length first, of a release those around the limit.
    let lengths = generate::every_length();
    let first: Vec<Vec<u8>> = match program.text {
        Text::Released => releases::program_inputs(),
        _ => (0..lengths.count).map(lengths.image).collect(),
    };
    for input in first {
        check(program, &input)?;
        inputs += 1;
    }
    while start.elapsed() < Duration::from_secs(seconds) {
        let input = match program.text {
            Text::Unpacked => packed_input(&mut random),
            Text::Released => releases::any_input(&mut random),
            _ => input(&mut random),
        };
        check(program, &input)?;
        inputs += 1;
    }
    let Program { file, text, .. } = program;
    Ok(format!("{file}: {inputs} inputs, each with the text of {text:?} that it must have"))
}

fn input(random: &mut Random) -> Vec<u8> {
    match random.below(56) {
        0..=14 => numbered::any_image(random),
        15..=26 => generate::damaged(random),
        27..=32 => generate::truncated(random),
        33..=36 => generate::any_bytes(random, 199),
        37..=38 => generate::limit(random),
        39..=41 => generate::paged(random),
        42 => generate::longest_pages(random),
        43..=46 => generate::restless(random),
        47..=53 => numbered::any_numbered(random),
        54 => numbered::any_many(random),
        // Much more than an image may have.
        _ => vec![random.pick(&[0, 0xF0, 0x2B]); MAX_IMAGE + random.below(1 << 20)],
    }
}

fn packed_input(random: &mut Random) -> Vec<u8> {
    match random.below(20) {
        0 => forms::any_end(random),
        1 => packed::pack(&generate::paged(random)),
        2 => {
            let mut form = packed::pack(&generate::longest_pages(random));
            let more = random.pick(&[0, 1, 8192, 1 << 20]);
            form.resize(form.len() + more, random.pick(&[0, 0xF0]));
            form
        }
        _ => forms::any_form(random),
    }
}

fn check(program: Program, input: &[u8]) -> Result<(), String> {
    check_by(program.text, program.file, |input| run(program, input), input)
}

/// Compares all that a program writes.
pub fn check_by(
    text: Text,
    name: &str,
    run: impl Fn(&[u8]) -> Result<Said, String>,
    input: &[u8],
) -> Result<(), String> {
    let differs = |input: &[u8]| match said(text, input) {
        Ok(expected) => run(input) != Ok(expected),
        Err(_) => true,
    };
    if !differs(input) {
        return Ok(());
    }
    let deadline = Instant::now() + LONG_FOR;
    let shows = |input: &[u8]| (input.len() <= LONG || Instant::now() < deadline) && differs(input);
    let input = match text {
        Text::Unpacked => shrink_by(forms::shorter, input, shows),
        Text::Released => shrink_by(releases::shorter, input, shows),
        _ => shrink(input, shows),
    };
    let shown = |said: Result<Said, String>| match said {
        Err(error) => error,
        Ok(Said { output, error }) => {
            format!("\"{}\", error \"{}\"", output.escape_ascii(), error.escape_ascii())
        }
    };
    Err(format!(
        "DIFFERENCE in what {name} writes for {} bytes\n{}\nmust be: {}\nis: {}",
        input.len(),
        hexadecimal(&input),
        shown(said(text, &input)),
        shown(run(&input)),
    ))
}

/// What the program writes; it must not be ended by a signal. The exit status of `pack`, `unpack` and
/// `release` is 0; of a refusal 0 or, by the command that tells it by what the program wrote, 3.
fn run(program: Program, input: &[u8]) -> Result<Said, String> {
    let mut child = Command::new(program.file)
        .args(program.word)
        .stdin(Stdio::piped())
        .stdout(Stdio::piped())
        .stderr(Stdio::piped())
        .spawn()
        .map_err(|error| format!("{}: {error}", program.file))?;
    let mut stdin = child.stdin.take().unwrap();
    let mut stdout = child.stdout.take().unwrap();
    let mut output = Vec::new();
    let mut errors = Vec::new();
    let taken = std::thread::scope(|scope| {
        // A program that doesn't read to the end closes the pipe; one that writes much to either
        // output waits until it is read.
        let writer = scope.spawn(move || stdin.write_all(input).is_ok());
        scope.spawn(|| stdout.read_to_end(&mut output).ok());
        child.stderr.take().unwrap().read_to_end(&mut errors).ok();
        writer.join().unwrap()
    });
    let status = child.wait().map_err(|error| error.to_string())?;
    let good = match (program.text, status.code()) {
        (_, None) => false,
        (Text::Packed | Text::Unpacked, Some(code)) => code == 0 || code == 3 && !errors.is_empty(),
        (Text::Released, Some(code)) => code == 0 || code == 3 && errors == RELEASE_REFUSED,
        _ => true,
    };
    if !taken || !good {
        let errors = String::from_utf8_lossy(&errors);
        return Err(format!("{status}, input read to its end: {taken}, errors: {errors}"));
    }
    Ok(Said { output, error: errors })
}
