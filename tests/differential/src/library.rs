//! The proved static library. Everything that depends on its C interface is here.
//! Its header is `include/matchdesk.h`.

#[cfg(feature = "library")]
pub use linked::{factor_function, Library};

#[cfg(feature = "library")]
mod linked {
    use crate::answers::{Checked, Operations, Refusal, Reply, Rewritten, Success};
    use crate::factors::Leaf;

    /// Image and length, and the references to position and detail.
    type Check = unsafe extern "C" fn(*const u8, usize, *mut usize, *mut usize) -> usize;
    /// Image or packed form, output, their lengths, and the references to the two numbers.
    type Write =
        unsafe extern "C" fn(*const u8, usize, *mut u8, usize, *mut usize, *mut usize) -> usize;

    /// Wanted value, factor, and the reference to the other.
    pub type Factor = unsafe extern "C" fn(i32, i32, *mut i32) -> usize;

    /// Declares the functions of a C form: its parameters and their types.
    macro_rules! declared {
        ($given:tt: $($name:ident)*) => {
            extern "C" {
                $(fn $name $given -> usize;)*
            }
        };
    }

    declared! {
        (image: *const u8, length: usize, position: *mut usize, detail: *mut usize):
        matchdesk_image_check
        matchdesk_site_check
        matchdesk_sealing_check
    }
    declared! {
        (
            given: *const u8,
            length: usize,
            out: *mut u8,
            out_length: usize,
            first: *mut usize,
            second: *mut usize
        ):
        matchdesk_cleanup
        matchdesk_crystalfold
        matchdesk_rewrite
        matchdesk_rewrite_fuller
        matchdesk_rewrite_until_rest
        matchdesk_pages
        matchdesk_pack
        matchdesk_unpack
    }
    declared! {
        (
            release: *const u8,
            release_length: usize,
            out: *mut u8,
            out_length: usize,
            answers: *mut u8,
            answers_length: usize,
            first: *mut usize,
            second: *mut usize
        ):
        matchdesk_rewrite_release
    }
    declared! {
        (wanted: i32, factor: i32, other: *mut i32):
        matchdesk_factor_fx
        matchdesk_factor_i32
    }

    /// What stands behind the references before a call: no answer has it.
    const UNSET: usize = usize::MAX;

    const GUARD: i32 = 0x5A5A_5A5A;

    fn refusal(number: usize, position: usize, detail: usize) -> Refusal {
        Refusal {
            number: number.try_into().unwrap(),
            position: position.try_into().unwrap(),
            detail: detail.try_into().unwrap(),
        }
    }

    fn check(operation: Check, image: &[u8]) -> Checked {
        let (mut position, mut detail) = (UNSET, UNSET);
        let number = unsafe { operation(image.as_ptr(), image.len(), &mut position, &mut detail) };
        if number != 0 {
            return Err(refusal(number, position, detail));
        }
        assert_eq!((position, detail), (0, 0), "numbers of a check that refuses nothing");
        Ok(())
    }

    fn reply(operation: Write, image: &[u8], out: &mut [u8]) -> Reply {
        let (mut first, mut second) = (UNSET, UNSET);
        let number = unsafe {
            operation(
                image.as_ptr(),
                image.len(),
                out.as_mut_ptr(),
                out.len(),
                &mut first,
                &mut second,
            )
        };
        Reply { number, first, second }
    }

    fn answer(operation: Write, image: &[u8], out: &mut [u8]) -> Rewritten {
        let Reply { number, first, second } = reply(operation, image, out);
        if number != 0 {
            return Err(refusal(number, first, second));
        }
        Ok(Success {
            length: first,
            num_rewrites: second.try_into().unwrap(),
            changed: second != 0,
        })
    }

    pub fn factor_function(leaf: Leaf) -> Factor {
        match leaf {
            Leaf::MulFx => matchdesk_factor_fx,
            Leaf::MulI32 => matchdesk_factor_i32,
        }
    }

    pub struct Library;

    impl Operations for Library {
        fn name(&self) -> &'static str {
            "library"
        }
        fn image_check(&self, image: &[u8]) -> Checked {
            check(matchdesk_image_check, image)
        }
        fn site_check(&self, image: &[u8]) -> Checked {
            check(matchdesk_site_check, image)
        }
        fn sealing_check(&self, image: &[u8]) -> Checked {
            check(matchdesk_sealing_check, image)
        }
        fn cleanup(&self, image: &[u8], out: &mut [u8]) -> Rewritten {
            answer(matchdesk_cleanup, image, out)
        }
        fn crystalfold(&self, image: &[u8], out: &mut [u8]) -> Rewritten {
            answer(matchdesk_crystalfold, image, out)
        }
        fn rewrite(&self, image: &[u8], out: &mut [u8]) -> Rewritten {
            answer(matchdesk_rewrite, image, out)
        }
        fn fuller(&self, image: &[u8], out: &mut [u8]) -> Rewritten {
            answer(matchdesk_rewrite_fuller, image, out)
        }
        fn rest(&self, image: &[u8], out: &mut [u8]) -> Rewritten {
            answer(matchdesk_rewrite_until_rest, image, out)
        }
        fn pages(&self, image: &[u8], out: &mut [u8]) -> Reply {
            reply(matchdesk_pages, image, out)
        }
        fn pack(&self, image: &[u8], out: &mut [u8]) -> Reply {
            reply(matchdesk_pack, image, out)
        }
        fn unpack(&self, packed: &[u8], out: &mut [u8]) -> Reply {
            reply(matchdesk_unpack, packed, out)
        }
        fn release(&self, release: &[u8], out: &mut [u8], answers: &mut [u8]) -> Reply {
            let (mut first, mut second) = (UNSET, UNSET);
            let number = unsafe {
                matchdesk_rewrite_release(
                    release.as_ptr(),
                    release.len(),
                    out.as_mut_ptr(),
                    out.len(),
                    answers.as_mut_ptr(),
                    answers.len(),
                    &mut first,
                    &mut second,
                )
            };
            Reply { number, first, second }
        }
        fn factor(&self, leaf: Leaf, wanted: i32, factor: i32, other: &mut i32) -> usize {
            // Between two numbers that nobody may write.
            let mut memory = [GUARD, *other, GUARD];
            let lent = unsafe { memory.as_mut_ptr().add(1) };
            let number = unsafe { factor_function(leaf)(wanted, factor, lent) };
            assert_eq!((memory[0], memory[2]), (GUARD, GUARD), "numbers beside what is lent");
            *other = memory[1];
            number
        }
    }
}
