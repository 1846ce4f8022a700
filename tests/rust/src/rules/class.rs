//! Class: by filters and searches over tables where the proved code compares step by step.

/// `fw_class_answer`, as the header lays it out.
#[repr(C)]
#[derive(Debug, Clone, Copy, PartialEq, Eq, PartialOrd, Ord)]
pub struct Class {
    pub refusal: u32,
    pub step: u32,
    pub letter: u32,
}

pub const STEPS: [u32; 12] = [
    1000, 1500, 2000, 2500, 3000, 3500, 4000, 4500, 5000, 6000, 7000, 8000,
];

/// Each letter with the tenths of fR3 over the step that it begins at.
pub const LETTERS: [(u8, u32); 5] = [(b'a', 5), (b'b', 7), (b'c', 9), (b'd', 11), (b'e', 13)];

pub fn class(fr1: u16, fr3: u16) -> Class {
    let step = STEPS
        .into_iter()
        .filter(|step| *step <= u32::from(fr1))
        .max();
    let graded = step.and_then(|step| {
        let reached = |(_, tenths): &(u8, u32)| tenths * step <= 10 * u32::from(fr3);
        LETTERS
            .into_iter()
            .rev()
            .find(reached)
            .map(|(letter, _)| (step, u32::from(letter)))
    });
    match graded {
        Some((step, letter)) => Class {
            refusal: 0,
            step,
            letter,
        },
        None => Class {
            refusal: 17,
            step: 0,
            letter: 0,
        },
    }
}
