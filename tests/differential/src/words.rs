//! The printing program's word `factor` (document 02, W14), which goes by its arguments alone.

use crate::factors::{self, edges, Leaf, LEAVES};
use crate::random::Random;
use std::collections::BTreeMap;
use std::ffi::OsStr;
use std::os::unix::ffi::OsStrExt;
use std::process::{Command, Stdio};
use std::time::{Duration, Instant};

/// The arguments, without the program's name. None holds the byte 0.
pub type Words = Vec<Vec<u8>>;

/// What comes on standard output and on standard error.
#[derive(Debug, Clone, PartialEq, Eq)]
pub struct Texts {
    pub output: String,
    pub error: String,
}

/// What is answered.
#[derive(Debug, Clone, Copy, PartialEq, Eq)]
pub enum Answer {
    Found(i32),
    NoFactor,
    /// A word, by its name in the usage.
    NoNumber(&'static str),
    Usage,
}

/// Bytes of the longest word that may be a number.
pub const LONGEST: usize = 64;

const USAGE: &str = "\
usage: matchdesk [rewrite | fuller | rest | bytes | check | pages | pack] < image
       matchdesk unpack < packed
       matchdesk factor (fx | i32) WANTED FACTOR
";

// ---- What must come ----

/// Not asked of no word at all, or of another job's word alone: these read an image.
pub fn answer(words: &[Vec<u8>]) -> Answer {
    let [first, product, wanted, factor] = words else { return Answer::Usage };
    let leaf = match (&first[..], &product[..]) {
        (b"factor", b"fx") => Leaf::MulFx,
        (b"factor", b"i32") => Leaf::MulI32,
        _ => return Answer::Usage,
    };
    match (number(wanted), number(factor)) {
        (None, _) => Answer::NoNumber("WANTED"),
        (_, None) => Answer::NoNumber("FACTOR"),
        (Some(wanted), Some(factor)) => {
            factors::model(leaf, wanted, factor).map_or(Answer::NoFactor, Answer::Found)
        }
    }
}

/// A word as Rust reads it.
pub fn number(word: &[u8]) -> Option<i32> {
    let word = Some(word).filter(|word| word.len() <= LONGEST)?;
    std::str::from_utf8(word).ok()?.parse().ok()
}

pub fn texts(answer: Answer) -> Texts {
    let output = |output| Texts { output, error: String::new() };
    let error = |error| Texts { output: String::new(), error };
    match answer {
        Answer::Found(found) => output(format!("{found}\n")),
        Answer::NoFactor => output("refused 36 0 0\n".into()),
        Answer::NoNumber(name) => {
            error(format!("{name} is no i32: a whole number from -2147483648 to 2147483647\n"))
        }
        Answer::Usage => error(USAGE.into()),
    }
}

// ---- The comparison ----

/// How often each answer came, and each kind of word.
#[derive(Debug, Default)]
pub struct Counts {
    pub inputs: u64,
    pub answers: BTreeMap<&'static str, u64>,
    pub kinds: BTreeMap<&'static str, u64>,
}

impl Counts {
    pub fn lines(&self) -> String {
        let line = |counts: &BTreeMap<&str, u64>| {
            let counts: Vec<String> =
                counts.iter().map(|(name, count)| format!("{name}: {count}")).collect();
            counts.join(", ")
        };
        format!("answers  {}\nwords    {}", line(&self.answers), line(&self.kinds))
    }
}

/// Runs a program on the listed words, then on random ones.
pub fn compare(
    run: impl Fn(&[Vec<u8>]) -> Result<Texts, String>,
    seed: u64,
    seconds: u64,
) -> Result<Counts, String> {
    let start = Instant::now();
    let mut random = Random::new(seed);
    let mut counts = Counts::default();
    let mut check = |input: Input| {
        let answer = check(&run, &input.words)?;
        counts.inputs += 1;
        *counts.answers.entry(name(answer)).or_default() += 1;
        for kind in input.kinds {
            *counts.kinds.entry(kind).or_default() += 1;
        }
        Ok::<(), String>(())
    };
    listed().into_iter().try_for_each(&mut check)?;
    while start.elapsed() < Duration::from_secs(seconds) {
        check(any_input(&mut random))?;
    }
    Ok(counts)
}

fn name(answer: Answer) -> &'static str {
    match answer {
        Answer::Found(_) => "found",
        Answer::NoFactor => "36",
        Answer::NoNumber(name) => name,
        Answer::Usage => "usage",
    }
}

/// Compares both texts in full. Gives the answer.
pub fn check(
    run: impl Fn(&[Vec<u8>]) -> Result<Texts, String>,
    words: &[Vec<u8>],
) -> Result<Answer, String> {
    let differs = |words: &[Vec<u8>]| run(words) != Ok(texts(answer(words)));
    if !differs(words) {
        return Ok(answer(words));
    }
    let words = shrink(words, differs);
    let shown: Vec<String> =
        words.iter().map(|word| format!("\"{}\"", word.escape_ascii())).collect();
    Err(format!(
        "DIFFERENCE in what is written for the words {}\nmust be: {:?}\nis: {:?}",
        shown.join(" "),
        texts(answer(&words)),
        run(&words),
    ))
}

/// Takes away bytes, never a word, as long as `shows` holds.
fn shrink(words: &[Vec<u8>], shows: impl Fn(&[Vec<u8>]) -> bool) -> Words {
    let mut best = words.to_vec();
    for at in 0..best.len() {
        let mut byte = 0;
        while byte < best[at].len() {
            let mut shorter = best.clone();
            shorter[at].remove(byte);
            if shows(&shorter) {
                best = shorter;
            } else {
                byte += 1;
            }
        }
    }
    best
}

/// What a program writes; its exit status must be 0. It gets no input.
pub fn run(file: &str, words: &[Vec<u8>]) -> Result<Texts, String> {
    let done = Command::new(file)
        .args(words.iter().map(|word| OsStr::from_bytes(word)))
        .stdin(Stdio::null())
        .output()
        .map_err(|error| format!("{file}: {error}"))?;
    if !done.status.success() {
        return Err(done.status.to_string());
    }
    let text = |bytes| String::from_utf8(bytes).map_err(|error| error.to_string());
    Ok(Texts { output: text(done.stdout)?, error: text(done.stderr)? })
}

// ---- Words ----

/// Words, and what is counted of them.
pub struct Input {
    pub words: Words,
    pub kinds: Vec<&'static str>,
}

fn product_word(leaf: Leaf) -> &'static [u8] {
    match leaf {
        Leaf::MulFx => b"fx",
        Leaf::MulI32 => b"i32",
    }
}

fn four(first: &[u8], product: &[u8], wanted: &[u8], factor: &[u8]) -> Words {
    [first, product, wanted, factor].map(|word| word.to_vec()).into()
}

// Listed words, a bar between every two.

/// None of these is a product.
const NO_PRODUCTS: &str =
    "|f|x|FX|Fx|fx | fx|fxx|fx32|i|i3|I32|i32 |i322|i64|u32|MulI32|fxi32fxi32fxi32fxi32";

/// None of these is `factor`.
const NO_FACTORS: &str = "|f|facto|actor|Factor|FACTOR|factors|factor |-factor|factorfactorfact|\
    factorfactorfacto|rewrite|rest|bytes|pages|pack|unpack";

/// Numbers, or nearly.
const NUMBERS: &str = "0|1|5|-5|+5|1000|-0|+0|00|-00|007|-007|+007|2147483646|2147483647|\
    +2147483647|2147483648|2147483649|2147483650|02147483648|-2147483647|-2147483648|-2147483649|\
    -2147483650|-2147483658|3000000000|4294967295|4294967296|4294967301|-4294967296|9999999999|\
    18446744073709551615|18446744073709551616|18446744073709551621|99999999999999999999|\
    -99999999999999999999||+|-|+-5|-+5|--5|++5|5-|5+| 5|5 |5\n|\t5|5x|x5|5.0|5e0|0x5|5h|1_000|\
    1,000|1 000|/|:|٥|５|−5|5\u{a0}|\u{feff}5";

/// What always comes first: each number, or nearly one, as either word and of either product; wrong
/// products, first words and counts.
fn listed() -> Vec<Input> {
    let mut words = Vec::new();
    for number in listed_numbers() {
        for product in LEAVES.map(product_word) {
            words.push(four(b"factor", product, &number, b"1000"));
            words.push(four(b"factor", product, b"10", &number));
            words.push(four(b"factor", product, &number, b"none"));
        }
    }
    let products = NO_PRODUCTS.split('|').map(str::as_bytes);
    words.extend(products.map(|product| four(b"factor", product, b"5", b"1000")));
    let firsts = NO_FACTORS.split('|').map(str::as_bytes);
    words.extend(firsts.map(|first| four(first, b"fx", b"5", b"1000")));
    for (first, counts) in [("factor", &[1, 2, 3, 5, 6, 9][..]), ("rewrite", &[2, 3, 5])] {
        let all = four(first.as_bytes(), b"fx", b"5", b"1000");
        words.extend(counts.iter().map(|count| repeated(&all, *count)));
    }
    words.into_iter().map(|words| Input { words, kinds: vec!["listed"] }).collect()
}

fn listed_numbers() -> Vec<Vec<u8>> {
    let mut numbers: Vec<Vec<u8>> = NUMBERS.split('|').map(Vec::from).collect();
    for width in LONGEST - 2..=LONGEST + 2 {
        numbers.extend([filled(5, width), filled(-5, width), format!("{:+0width$}", 5).into()]);
    }
    numbers.extend([b"\xB5".into(), b"5\xFF".into(), b"\xC0\xB5".into()]);
    numbers
}

/// So many words, these over and over.
fn repeated(words: &[Vec<u8>], count: usize) -> Words {
    words.iter().cycle().take(count).cloned().collect()
}

/// Mostly numbers in both places; one in eight has another first word, product or count.
pub fn any_input(random: &mut Random) -> Input {
    let leaf = random.pick(&LEAVES);
    let (wanted, factor) = match random.below(4) {
        0 => (random.pick(&edges()), random.pick(&edges())),
        _ => factors::any_pair(random, leaf),
    };
    let (wanted, wanted_kind) = spelled(random, wanted);
    let (factor, factor_kind) = spelled(random, factor);
    let mut words = four(b"factor", product_word(leaf), &wanted, &factor);
    let kinds = match random.below(24) {
        0 => {
            words[0] = nearly(random, NO_FACTORS);
            vec!["first word"]
        }
        1 => {
            words[1] = nearly(random, NO_PRODUCTS);
            vec!["product"]
        }
        2 => {
            words = repeated(&words, random.pick(&[1, 2, 3, 5, 6, 7]));
            vec!["count"]
        }
        _ => vec![wanted_kind, factor_kind],
    };
    Input { words, kinds }
}

/// One of the listed words, or any bytes.
fn nearly(random: &mut Random, listed: &str) -> Vec<u8> {
    match random.below(3) {
        0 => any_bytes(random, 20),
        _ => random.pick(&listed.split('|').collect::<Vec<_>>()).into(),
    }
}

/// A number's word, and the name of its spelling. Half are plain.
fn spelled(random: &mut Random, x: i32) -> (Vec<u8>, &'static str) {
    let (name, spelling) = match random.below(2) {
        0 => SPELLINGS[0],
        _ => random.pick(&SPELLINGS),
    };
    (spelling(random, x), name)
}

/// A way to write a number, or nearly one.
type Spelling = fn(&mut Random, i32) -> Vec<u8>;

pub const SPELLINGS: [(&str, Spelling); 20] = [
    ("plain", |_, x| x.to_string().into()),
    ("plus", |_, x| format!("+{}", x.unsigned_abs()).into()),
    ("zeros", |random, x| filled(x, random.range(2, 61))),
    ("about 64 bytes", |random, x| filled(x, random.range(62, 67))),
    ("far longer", |random, x| filled(x, random.range(68, 5000))),
    ("no digits", |random, _| random.pick(&["", "+", "-"]).into()),
    ("zero", |random, _| random.pick(&["-0", "+0", "00", "-00000"]).into()),
    ("two signs", |random, x| {
        format!("{}{}", random.pick(&["+-", "-+", "--", "++", "- ", "−"]), x.unsigned_abs()).into()
    }),
    ("blanks", |random, x| {
        let blank = random.pick(&[" ", "\t", "\n", "\r", "\u{b}", "\u{a0}", "\u{3000}"]);
        match random.below(2) {
            0 => format!("{blank}{x}").into(),
            _ => format!("{x}{blank}").into(),
        }
    }),
    ("more behind", |random, x| {
        format!("{x}{}", random.pick(&["x", "a", "i32", ".", ".0", "e0", "-", "/", ":"])).into()
    }),
    ("another base", |random, x| match random.below(5) {
        0 => format!("{x:#x}").into(),
        1 => format!("{x:X}").into(),
        2 => format!("{x:#b}").into(),
        3 => format!("{x:#o}").into(),
        _ => format!("#{x}").into(),
    }),
    ("separator", |random, x| {
        let separator = random.pick(&["_", ",", ".", " ", "'"]);
        with(random, x, separator.as_bytes())
    }),
    ("other digits", |random, x| {
        let zero = random.pick(&['\u{660}', '\u{966}', '\u{FF10}', '\u{1D7CE}']) as u32;
        let other = |digit: u32| char::from_u32(zero + digit).unwrap();
        let all = x.to_string();
        all.chars().map(|c| c.to_digit(10).map_or(c, other)).collect::<String>().into()
    }),
    ("ends of the range", |random, _| {
        let end = random.pick(&[i32::MIN, i32::MAX]) as i64;
        (end + random.range(0, 6) as i64 - 3).to_string().into()
    }),
    ("wraps to an i32", |random, x| {
        let times = random.range(1, 9) as i128 - 5;
        (x as i128 + (times << random.pick(&[32, 32, 33, 64]))).to_string().into()
    }),
    ("many digits", |random, x| {
        let digits = random.range(9, 66);
        let any: Vec<u8> = (0..digits).map(|_| b'0' + random.below(10) as u8).collect();
        let sign: &[u8] = if x < 0 { b"-" } else { b"" };
        [sign, &if random.chance(20) { vec![b'9'; digits] } else { any }].concat()
    }),
    ("a byte changed", |random, x| {
        let mut word = x.to_string().into_bytes();
        let at = random.below(word.len());
        word[at] = random.range(1, 255) as u8;
        word
    }),
    ("a byte more", |random, x| {
        let byte = random.range(1, 255) as u8;
        with(random, x, &[byte])
    }),
    ("no UTF-8", |random, x| {
        let byte = random.range(0x80, 0xFF) as u8;
        with(random, x, &[byte])
    }),
    ("any bytes", |random, _| any_bytes(random, 70)),
];

/// So many bytes at least, by zeros behind the sign.
fn filled(x: i32, width: usize) -> Vec<u8> {
    format!("{x:0width$}").into()
}

/// These bytes before, in or behind the number.
fn with(random: &mut Random, x: i32, bytes: &[u8]) -> Vec<u8> {
    let word = x.to_string().into_bytes();
    let (before, behind) = word.split_at(random.below(word.len() + 1));
    [before, bytes, behind].concat()
}

/// Up to so many, 0 left out.
fn any_bytes(random: &mut Random, most: usize) -> Vec<u8> {
    let length = random.range(0, most);
    (0..length).map(|_| random.range(1, 255) as u8).collect()
}
