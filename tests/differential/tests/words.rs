//! Shows that the harness finds printing programs that answer the word `factor` wrongly (document 02,
//! W14), and holds what must come against rows written out by hand.

use differential::factors::{self, Leaf};
use differential::random::Random;
use differential::words::{self, Answer, Texts, Words, LONGEST, SPELLINGS};

/// A program that writes what it must but for one fault.
#[derive(Debug, Clone, Copy, PartialEq)]
enum Fault {
    NoFault,
    // Numbers.
    MoreBehind,
    RangeOneOff,
    SignForgotten,
    PlusRefused,
    // Answers.
    Exchanged,
    // Texts.
    NoLineFeed,
    RefusedOnError,
    WantedForFactor,
}
use Fault::*;

const FAULTS: [Fault; 8] = [
    MoreBehind,
    RangeOneOff,
    SignForgotten,
    PlusRefused,
    Exchanged,
    NoLineFeed,
    RefusedOnError,
    WantedForFactor,
];

impl Fault {
    fn number(self, word: &[u8]) -> Option<i32> {
        let right = words::number(word);
        match self {
            MoreBehind => {
                let other = |at: &usize| *at > 0 && !word[*at].is_ascii_digit();
                let end = (0..word.len()).find(other).unwrap_or(word.len());
                words::number(&word[..end])
            }
            RangeOneOff if word == b"2147483648" => Some(i32::MIN),
            SignForgotten => right.map(i32::wrapping_abs),
            PlusRefused => right.filter(|_| word[0] != b'+'),
            _ => right,
        }
    }

    fn answer(self, words: &[Vec<u8>]) -> Answer {
        let right = words::answer(words);
        if right == Answer::Usage {
            return right;
        }
        let leaf = if words[1] == b"fx" { Leaf::MulFx } else { Leaf::MulI32 };
        match (self.number(&words[2]), self.number(&words[3])) {
            (Some(_), None) if self == WantedForFactor => Answer::NoNumber("WANTED"),
            (None, _) => Answer::NoNumber("WANTED"),
            (_, None) => Answer::NoNumber("FACTOR"),
            (Some(wanted), Some(factor)) => {
                let (wanted, factor) =
                    if self == Exchanged { (factor, wanted) } else { (wanted, factor) };
                factors::model(leaf, wanted, factor).map_or(Answer::NoFactor, Answer::Found)
            }
        }
    }

    fn run(self, words: &[Vec<u8>]) -> Result<Texts, String> {
        let answer = self.answer(words);
        let Texts { output, error } = words::texts(answer);
        Ok(match (self, answer) {
            (NoLineFeed, Answer::Found(_)) => Texts { output: output.trim_end().into(), error },
            (RefusedOnError, Answer::NoFactor) => Texts { output: error, error: output },
            _ => Texts { output, error },
        })
    }
}

#[test]
fn every_wrong_program_is_found() {
    for fault in FAULTS {
        let difference = words::compare(|words| fault.run(words), 1, 0).unwrap_err();
        println!("{fault:?}: {difference}");
        assert!(difference.starts_with("DIFFERENCE"), "{fault:?}");
    }
}

/// Random words alone find each of them too.
#[test]
fn by_random_words_alone() {
    let mut random = Random::new(1);
    for fault in FAULTS {
        let mut differs = || {
            let input = words::any_input(&mut random);
            words::check(|words| fault.run(words), &input.words).is_err()
        };
        assert!((0..100_000).any(|_| differs()), "{fault:?}");
    }
}

/// Wrong programs are wrong by their fault alone; and every answer and spelling comes up often.
#[test]
fn no_fault_is_right() {
    let counts = words::compare(|words| NoFault.run(words), 1, 2).unwrap();
    println!("{}", counts.lines());
    let answers = ["found", "36", "WANTED", "FACTOR", "usage"];
    assert!(answers.iter().all(|name| counts.answers[name] >= 200));
    let spellings = SPELLINGS.iter().map(|(name, _)| *name);
    for kind in spellings.chain(["first word", "product", "count", "listed"]) {
        assert!(counts.kinds[kind] >= 200, "{kind}");
    }
}

/// No word holds the byte 0, and one word alone asks for nothing else.
#[test]
fn words_can_be_arguments() {
    let mut random = Random::new(1);
    for _ in 0..100_000 {
        let words = words::any_input(&mut random).words;
        assert!(words.iter().all(|word| !word.contains(&0)));
        assert!(words.len() > 1 || words == [b"factor"]);
    }
}

fn split(line: &str) -> Words {
    line.split(' ').map(|word| word.as_bytes().to_vec()).collect()
}

/// Document 02's words, row by row: words, standard output, standard error.
#[test]
fn by_hand() {
    let wanted = "WANTED is no i32: a whole number from -2147483648 to 2147483647\n";
    let factor = "FACTOR is no i32: a whole number from -2147483648 to 2147483647\n";
    let usage =
        "usage: matchdesk [rewrite | fuller | rest | bytes | check | pages | pack] < image\n       \
                 matchdesk unpack < packed\n       \
                 matchdesk factor (fx | i32) WANTED FACTOR\n";
    let rows = [
        ("factor fx 2250 1500", "1500\n", ""),
        ("factor fx -1 1", "-1000\n", ""),
        ("factor fx 1 2000", "refused 36 0 0\n", ""),
        ("factor i32 1 3", "-1431655765\n", ""),
        ("factor i32 1 2", "refused 36 0 0\n", ""),
        ("factor i32 0 0", "0\n", ""),
        ("factor i32 -2147483648 1", "-2147483648\n", ""),
        ("factor i32 2147483647 +1", "2147483647\n", ""),
        ("factor i32 -0 -007", "0\n", ""),
        ("factor i32 2147483648 1", "", wanted),
        ("factor i32 1 -2147483649", "", factor),
        ("factor fx x y", "", wanted),
        ("factor fx 1 5x", "", factor),
        ("factor fx  1", "", wanted),
        ("factor fx +-5 1", "", wanted),
        ("factor fx 1_000 1", "", wanted),
        ("factor fx 5 ٥", "", factor),
        ("factor f 1 1", "", usage),
        ("factor FX x y", "", usage),
        ("factors fx 1 1", "", usage),
        ("factor fx 1", "", usage),
        ("factor fx 1 1 1", "", usage),
        ("factor", "", usage),
    ];
    for (line, output, error) in rows {
        let texts = words::texts(words::answer(&split(line)));
        assert_eq!((&texts.output[..], &texts.error[..]), (output, error), "{line}");
    }
    assert_eq!(words::number(b"\xB5"), None);
    assert_eq!(words::number(format!("{:0LONGEST$}", -5).as_bytes()), Some(-5));
    assert_eq!(words::number(format!("0{:0LONGEST$}", 5).as_bytes()), None);
}

/// A program is run with the bytes of its words, and its exit status counts.
#[test]
fn programs_are_run() {
    let words: Words = vec![b"-5 ".to_vec(), Vec::new(), "é".into()];
    let texts = |output: &str| Ok(Texts { output: output.into(), error: String::new() });
    assert_eq!(words::run("/bin/echo", &words), texts("-5   é\n"));
    assert_eq!(words::run("/bin/cat", &[]), texts(""));
    assert!(words::run("/bin/false", &words).is_err());
    assert!(words::run("/no/such/file", &words).is_err());
    for file in ["/bin/true", "/bin/false", "/bin/echo"] {
        assert!(words::compare(|words| words::run(file, words), 1, 0).is_err(), "{file}");
    }
}
