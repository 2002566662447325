//! The call of the static library. All unsafe code stands here.

/// bindings/c/quanta_check.h says what the fields are.
#[repr(C)]
#[derive(Clone, Copy, Debug, PartialEq, Eq)]
pub struct Answer {
    pub number: u32,
    pub place: u32,
    pub count: u32,
    pub length: u32,
}

mod library {
    extern "C" {
        pub fn quanta_check(
            sheet: *const u8,
            sheet_len: usize,
            scratch: *mut u16,
            scratch_len: usize,
            types: *mut u8,
            types_len: usize,
            message: *mut u8,
            message_len: usize,
        ) -> super::Answer;
    }
}

pub fn quanta_check(
    sheet: &[u8],
    scratch: &mut [u16],
    types: &mut [u8],
    message: &mut [u8],
) -> Answer {
    // SAFETY: each pointer is that of a slice, with its length: aligned, not null, and lent to
    // this call alone where it is written to. The library keeps none of them.
    unsafe {
        library::quanta_check(
            sheet.as_ptr(),
            sheet.len(),
            scratch.as_mut_ptr(),
            scratch.len(),
            types.as_mut_ptr(),
            types.len(),
            message.as_mut_ptr(),
            message.len(),
        )
    }
}

#[cfg(test)]
mod tests {
    use super::*;

    const SHEET: &[u8] = b"contract,1\nstate,0\n";

    fn lent(scratch: usize, types: usize) -> Answer {
        quanta_check(SHEET, &mut vec![7; scratch], &mut vec![7; types], &mut [])
    }

    fn number(number: u32) -> Answer {
        Answer { number, place: 0, count: 0, length: 0 }
    }

    #[test]
    fn tables_that_are_exact_or_short_or_empty() {
        assert_eq!(lent(16, 2), number(0));
        assert_eq!(lent(16, 1), number(4));
        assert_eq!(lent(15, 2), number(5));
        assert_eq!(lent(0, 0), number(4));
    }
}
