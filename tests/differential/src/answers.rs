//! The answers of the operations.

use crate::factors::Leaf;
use std::fmt;

/// A refusal's number, the function's position and the detail.
#[derive(Debug, Clone, Copy, PartialEq, Eq)]
pub struct Refusal {
    pub number: u8,
    pub position: u32,
    pub detail: u32,
}

/// The length written and the report.
#[derive(Debug, Clone, Copy, PartialEq, Eq)]
pub struct Success {
    pub length: usize,
    pub num_rewrites: u32,
    pub changed: bool,
}

pub type Checked = Result<(), Refusal>;
pub type Rewritten = Result<Success, Refusal>;

/// The three numbers of an answer as C gets them: 0, the first and the second; or a refusal's number,
/// the position and the detail.
#[derive(Debug, Clone, Copy, PartialEq, Eq)]
pub struct Reply {
    pub number: usize,
    pub first: usize,
    pub second: usize,
}

impl From<Refusal> for Reply {
    fn from(refusal: Refusal) -> Reply {
        Reply {
            number: refusal.number as usize,
            first: refusal.position as usize,
            second: refusal.detail as usize,
        }
    }
}

impl fmt::Display for Reply {
    fn fmt(&self, f: &mut fmt::Formatter) -> fmt::Result {
        let Reply { number, first, second } = self;
        write!(f, "number {number}, first {first}, second {second}")
    }
}

impl fmt::Display for Refusal {
    fn fmt(&self, f: &mut fmt::Formatter) -> fmt::Result {
        write!(f, "refused {} {} {}", self.number, self.position, self.detail)
    }
}

impl fmt::Display for Success {
    fn fmt(&self, f: &mut fmt::Formatter) -> fmt::Result {
        let Success { length, num_rewrites, changed } = self;
        write!(f, "length {length}, rewrites {num_rewrites}, changed {changed}")
    }
}

pub fn checked_text(answer: &Checked) -> String {
    answer.map_or_else(|refusal| refusal.to_string(), |()| "good".into())
}

pub fn rewritten_text(answer: &Rewritten) -> String {
    answer.map_or_else(|refusal| refusal.to_string(), |success| success.to_string())
}

/// The operations that write an image.
#[derive(Debug, Clone, Copy, PartialEq, Eq)]
pub enum Operation {
    /// The default rewrite, the Rust's.
    Rewrite,
    Cleanup,
    CrystalFold,
    /// Document 02's fuller rewrite, which the Rust doesn't have.
    Fuller,
    /// Document 02's rewrite until it rests: the default one, again and again.
    Rest,
}

/// Those that the Rust has.
pub const ORIGINALS: [Operation; 3] =
    [Operation::Rewrite, Operation::Cleanup, Operation::CrystalFold];

/// All of them, those first.
pub const OPERATIONS: [Operation; 5] = {
    let [rewrite, cleanup, crystalfold] = ORIGINALS;
    [rewrite, cleanup, crystalfold, Operation::Fuller, Operation::Rest]
};

/// Someone who answers: the model, the proved library, or a wrong program.
pub trait Operations: Sync {
    fn name(&self) -> &'static str;
    fn image_check(&self, image: &[u8]) -> Checked;
    fn site_check(&self, image: &[u8]) -> Checked;
    /// Document 02's sealing check, which the Rust doesn't have.
    fn sealing_check(&self, image: &[u8]) -> Checked;
    fn cleanup(&self, image: &[u8], out: &mut [u8]) -> Rewritten;
    fn crystalfold(&self, image: &[u8], out: &mut [u8]) -> Rewritten;
    fn rewrite(&self, image: &[u8], out: &mut [u8]) -> Rewritten;
    fn fuller(&self, image: &[u8], out: &mut [u8]) -> Rewritten;
    fn rest(&self, image: &[u8], out: &mut [u8]) -> Rewritten;
    /// Document 02's pages, which the Rust doesn't have.
    fn pages(&self, image: &[u8], out: &mut [u8]) -> Reply;
    /// Document 02's packed form of an image, and the image of a packed form.
    fn pack(&self, image: &[u8], out: &mut [u8]) -> Reply;
    fn unpack(&self, packed: &[u8], out: &mut [u8]) -> Reply;
    /// Document 02's whole release: what becomes of each image, and the three numbers of each.
    fn release(&self, release: &[u8], out: &mut [u8], answers: &mut [u8]) -> Reply;
    /// Document 02's factor that gives a wanted value: the number of the answer.
    fn factor(&self, leaf: Leaf, wanted: i32, factor: i32, other: &mut i32) -> usize;

    fn run(&self, operation: Operation, image: &[u8], out: &mut [u8]) -> Rewritten {
        match operation {
            Operation::Rewrite => self.rewrite(image, out),
            Operation::Cleanup => self.cleanup(image, out),
            Operation::CrystalFold => self.crystalfold(image, out),
            Operation::Fuller => self.fuller(image, out),
            Operation::Rest => self.rest(image, out),
        }
    }
}
