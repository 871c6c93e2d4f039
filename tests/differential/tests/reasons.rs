//! Why a number leaf has no result (document 02, W5): the model against rows worked out by hand, and
//! against the vectors of `cases_leaves`, whose answers come from exact arithmetic in another language.

use differential::leaves::{compute, default_divide, Computed, Const};
use differential::legacy_lowering::byte;
use Computed::{DivisorZero, OutOfRange, Value};
use Const::{Fx, F64, I32, U32};

const LEAST: i32 = i32::MIN;
const MOST: i32 = i32::MAX;

#[test]
fn by_hand() {
    let rows = [
        // Zero is tested first, also where the result would be out of range.
        (byte::DivI32, I32(LEAST), I32(0), DivisorZero),
        (byte::DivI32, I32(LEAST), I32(-1), OutOfRange),
        (byte::DivI32, I32(-7), I32(2), Value(I32(-3))),
        (byte::ModI32, I32(LEAST), I32(0), DivisorZero),
        (byte::ModI32, I32(LEAST), I32(-1), OutOfRange),
        (byte::ModI32, I32(-7), I32(2), Value(I32(-1))),
        (byte::DivFx, Fx(MOST), Fx(0), DivisorZero),
        (byte::DivFx, Fx(MOST), Fx(999), OutOfRange),
        (byte::DivFx, Fx(MOST), Fx(1000), Value(Fx(MOST))),
        (byte::MulFx, Fx(MOST), Fx(1001), OutOfRange),
        (byte::AddFx, Fx(MOST), Fx(1), OutOfRange),
        (byte::SubFx, Fx(LEAST), Fx(1), OutOfRange),
        (byte::AddU32, U32(u32::MAX), U32(1), OutOfRange),
        (byte::SubU32, U32(0), U32(1), OutOfRange),
        (byte::MulU32, U32(65536), U32(65536), OutOfRange),
        (byte::DivU32, U32(0), U32(0), DivisorZero),
        (byte::ModU32, U32(7), U32(0), DivisorZero),
        // These wrap.
        (byte::AddI32, I32(MOST), I32(1), Value(I32(LEAST))),
        (byte::MulI32, I32(LEAST), I32(-1), Value(I32(LEAST))),
        // A wrong kind comes before either reason.
        (byte::DivI32, I32(LEAST), U32(0), Computed::Unfit),
    ];
    for (command, left, right, expected) in rows {
        assert_eq!(compute(command, left, right), expected, "{command:02X} {left:?} {right:?}");
    }
}

/// The command of a leaf's number in the file of vectors, and an operand or a result by its bits.
fn leaf(number: u8) -> Option<(u8, fn(u64) -> Const)> {
    let commands: &[u8] = match number >> 4 {
        1 => &[byte::AddF64, byte::SubF64, byte::MulF64, byte::DivF64, byte::DivF64],
        2 => &[byte::AddI32, byte::SubI32, byte::MulI32, byte::DivI32, byte::ModI32],
        3 => &[byte::AddU32, byte::SubU32, byte::MulU32, byte::DivU32, byte::ModU32],
        4 => &[byte::AddFx, byte::SubFx, byte::MulFx, byte::DivFx],
        _ => return None,
    };
    let of_bits: fn(u64) -> Const = match number >> 4 {
        1 => F64,
        2 => |bits| I32(bits as u32 as i32),
        3 => |bits| U32(bits as u32),
        _ => |bits| Fx(bits as u32 as i32),
    };
    let place = (number & 15).checked_sub(1)?;
    Some((*commands.get(place as usize)?, of_bits))
}

/// The Rust's division of f64 in the file of vectors.
const DEFAULT_DIVISION: u8 = 0x14;

#[test]
fn by_vectors() {
    let path = concat!(env!("CARGO_MANIFEST_DIR"), "/../../crates/cases_leaves/data/vectors.txt");
    let text = std::fs::read_to_string(path).unwrap();
    let bits = |digits| u64::from_str_radix(digits, 16).unwrap();
    let (mut number, mut zeros, mut ranges, mut values) = (0, 0, 0, 0);
    for line in text.lines() {
        if let Some(group) = line.strip_prefix("# ") {
            number = u8::from_str_radix(&group[..2], 16).unwrap();
            continue;
        }
        let Some((command, of_bits)) = leaf(number) else { continue };
        let (left, right) = (bits(&line[..16]), bits(&line[17..33]));
        let expected = match line[34..].trim_end() {
            "divisor zero" => DivisorZero,
            "out of range" => OutOfRange,
            digits => Value(of_bits(bits(digits))),
        };
        let got = match number {
            DEFAULT_DIVISION => default_divide(left, right),
            _ => compute(command, of_bits(left), of_bits(right)),
        };
        assert_eq!(got, expected, "leaf {number:02X}: {line}");
        match expected {
            DivisorZero => zeros += 1,
            OutOfRange => ranges += 1,
            _ => values += 1,
        }
    }
    assert!(zeros > 100 && ranges > 100 && values > 1000, "{zeros} {ranges} {values}");
}
