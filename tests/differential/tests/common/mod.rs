//! What wrong programs and rows written out by hand share.

/// Bytes by their digits; blanks don't count.
#[allow(dead_code)]
pub fn bytes(digits: &str) -> Vec<u8> {
    let digits: Vec<u8> = digits.bytes().filter(|digit| *digit != b' ').collect();
    let byte = |pair: &[u8]| u8::from_str_radix(std::str::from_utf8(pair).unwrap(), 16).unwrap();
    digits.chunks(2).map(byte).collect()
}

/// Cells by their digits, filled up with zeros.
#[allow(dead_code)]
pub fn image(cells: &[&str]) -> Vec<u8> {
    let cell = |digits: &&str| {
        let mut cell = bytes(digits);
        cell.resize(differential::cells::CELL, 0);
        cell
    };
    cells.iter().flat_map(cell).collect()
}

/// The faults of wrong programs: those that must be found, which are also `FAULTS`; and others.
#[allow(unused_macros)]
macro_rules! faults {
    ($($(#[$said:meta])* $name:ident),*; $($(#[$other_said:meta])* $other:ident,)*) => {
        #[derive(Debug, Clone, Copy, PartialEq)]
        enum Fault {
            $($(#[$said])* $name,)*
            $($(#[$other_said])* $other,)*
        }

        const FAULTS: &[Fault] = &[$(Fault::$name,)*];
    };
}

/// In an `impl Operations`: a wrong program whose checks and rewrites are the model's.
#[allow(unused_macros)]
macro_rules! checks_and_rewrites_of_the_model {
    () => {
        checks_and_rewrites_but_rest_of_the_model!();
        fn rest(&self, image: &[u8], out: &mut [u8]) -> differential::answers::Rewritten {
            Model.rest(image, out)
        }
    };
}

/// The same without the rewrite until it rests.
#[allow(unused_macros)]
macro_rules! checks_and_rewrites_but_rest_of_the_model {
    () => {
        fn name(&self) -> &'static str {
            "wrong"
        }
        fn image_check(&self, image: &[u8]) -> differential::answers::Checked {
            Model.image_check(image)
        }
        fn site_check(&self, image: &[u8]) -> differential::answers::Checked {
            Model.site_check(image)
        }
        fn sealing_check(&self, image: &[u8]) -> differential::answers::Checked {
            Model.sealing_check(image)
        }
        fn cleanup(&self, image: &[u8], out: &mut [u8]) -> differential::answers::Rewritten {
            Model.cleanup(image, out)
        }
        fn crystalfold(&self, image: &[u8], out: &mut [u8]) -> differential::answers::Rewritten {
            Model.crystalfold(image, out)
        }
        fn rewrite(&self, image: &[u8], out: &mut [u8]) -> differential::answers::Rewritten {
            Model.rewrite(image, out)
        }
        fn fuller(&self, image: &[u8], out: &mut [u8]) -> differential::answers::Rewritten {
            Model.fuller(image, out)
        }
    };
}

/// In an `impl Operations`: a wrong program whose packing and unpacking are the model's.
#[allow(unused_macros)]
macro_rules! packing_of_the_model {
    () => {
        fn pack(&self, image: &[u8], out: &mut [u8]) -> differential::answers::Reply {
            Model.pack(image, out)
        }
        fn unpack(&self, packed: &[u8], out: &mut [u8]) -> differential::answers::Reply {
            Model.unpack(packed, out)
        }
    };
}

/// In an `impl Operations`: a wrong program whose whole releases are the model's.
#[allow(unused_macros)]
macro_rules! releases_of_the_model {
    () => {
        fn release(
            &self,
            release: &[u8],
            out: &mut [u8],
            answers: &mut [u8],
        ) -> differential::answers::Reply {
            Model.release(release, out, answers)
        }
    };
}
