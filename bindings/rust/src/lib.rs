//! Safe calls of the proved definite-assignment checker. `include/da.h` says what each call does and what it leaves in the tables.
//!
//! The declarations of `calls` are the one place where nothing is checked. They take slices and places of the right type from the safe
//! functions below: references hold what they say, are set, and do not overlap. So of what C must see to one thing is left to a caller,
//! the 64 KiB of stack that `ask` and `verdict` may take.

#![no_std]

/// Numbers of a row table and of a name table that hold every sheet.
pub const ROW_NUMBERS: usize = 10_000;
pub const NAME_NUMBERS: usize = 1_500;

/// What loading tells of a sheet beside its tables.
#[repr(C)]
#[derive(Clone, Copy, PartialEq, Eq, Debug, Default)]
pub struct Record {
    pub names: usize,
    pub rows: usize,
    pub local: usize,
    pub start: usize,
    pub sole: usize,
}

/// A numbered refusal. The place is a line of the sheet (of a load or verdict), a row of the table (of asking), or 0.
#[repr(C)]
#[derive(Clone, Copy, PartialEq, Eq, Debug, Default)]
pub struct Refusal {
    pub number: usize,
    pub place: usize,
}

#[derive(Clone, Copy, PartialEq, Eq, Debug)]
pub enum Answer {
    /// Accepted; written says whether the local is written wherever the statement ends.
    Falls {
        written: bool,
    },
    /// Accepted, and no path comes to the statement's end.
    Jumps,
    /// Not accepted, with the span that the reason points at.
    GivesUp {
        reason: usize,
        lo: usize,
        hi: usize,
    },
    Refused(Refusal),
}

impl Answer {
    pub fn accepted(self) -> bool {
        matches!(self, Answer::Falls { .. } | Answer::Jumps)
    }
}

mod calls {
    use super::{Record, Refusal};

    #[repr(C)]
    #[derive(Default)]
    pub struct Numbers {
        pub answer: usize,
        pub state: usize,
        pub reason: usize,
        pub lo: usize,
        pub hi: usize,
    }

    #[repr(C)]
    #[derive(Default)]
    pub struct Place {
        pub offset: usize,
        pub length: usize,
        pub refusal: usize,
    }

    extern "C" {
        pub fn da_row_numbers() -> usize;
        pub fn da_name_numbers() -> usize;
        pub fn da_load(
            sheet: *const u8,
            sheet_length: usize,
            rows: *mut u32,
            rows_length: usize,
            names: *mut u32,
            names_length: usize,
            record: &mut Record,
            refusal: &mut Refusal,
        ) -> bool;
        pub fn da_ask(
            record: &Record,
            rows: *const u32,
            rows_length: usize,
            names: *const u32,
            names_length: usize,
            answer: &mut Numbers,
        ) -> bool;
        pub fn da_verdict(
            sheet: *const u8,
            sheet_length: usize,
            rows: *mut u32,
            rows_length: usize,
            names: *mut u32,
            names_length: usize,
            answer: &mut Numbers,
        ) -> bool;
        pub fn da_name(
            sheet: *const u8,
            sheet_length: usize,
            record: &Record,
            names: *const u32,
            names_length: usize,
            number: usize,
            place: &mut Place,
        ) -> bool;
    }
}

fn answer_of(accepted: bool, numbers: &calls::Numbers) -> Answer {
    let answer = match numbers.answer {
        0 => Answer::Falls { written: numbers.state == 1 },
        1 => Answer::Jumps,
        2 => Answer::GivesUp { reason: numbers.reason, lo: numbers.lo, hi: numbers.hi },
        _ => Answer::Refused(Refusal { number: numbers.reason, place: numbers.lo }),
    };
    debug_assert_eq!(accepted, answer.accepted());
    answer
}

/// Whether `ROW_NUMBERS` and `NAME_NUMBERS` are those of the archive that is linked.
pub fn lengths_agree() -> bool {
    // SAFETY: the calls take nothing, and answer a constant each.
    unsafe { calls::da_row_numbers() == ROW_NUMBERS && calls::da_name_numbers() == NAME_NUMBERS }
}

/// Loads a sheet into two tables. A refusal leaves zeros in both.
pub fn load(sheet: &[u8], rows: &mut [u32], names: &mut [u32]) -> Result<Record, Refusal> {
    let (mut record, mut refusal) = (Record::default(), Refusal::default());
    let (rows_at, names_at) = (rows.as_mut_ptr(), names.as_mut_ptr());
    // SAFETY: the slices hold their lengths, are set, and overlap nothing, as references to them do not.
    let loaded = unsafe {
        calls::da_load(sheet.as_ptr(), sheet.len(), rows_at, rows.len(), names_at, names.len(), &mut record, &mut refusal)
    };
    if loaded {
        Ok(record)
    } else {
        Err(refusal)
    }
}

/// Whether every read of the local comes after a write, in the sheet that a record and two tables hold, whoever filled them.
pub fn ask(record: &Record, rows: &[u32], names: &[u32]) -> Answer {
    let mut numbers = calls::Numbers::default();
    // SAFETY: as in `load`.
    let accepted = unsafe { calls::da_ask(record, rows.as_ptr(), rows.len(), names.as_ptr(), names.len(), &mut numbers) };
    answer_of(accepted, &numbers)
}

/// `load`, then `ask`. The tables end as `load` leaves them.
pub fn verdict(sheet: &[u8], rows: &mut [u32], names: &mut [u32]) -> Answer {
    let mut numbers = calls::Numbers::default();
    let (rows_at, names_at) = (rows.as_mut_ptr(), names.as_mut_ptr());
    // SAFETY: as in `load`.
    let accepted =
        unsafe { calls::da_verdict(sheet.as_ptr(), sheet.len(), rows_at, rows.len(), names_at, names.len(), &mut numbers) };
    answer_of(accepted, &numbers)
}

/// The text of a name, a part of the sheet that was loaded; or 22 or 24.
pub fn name<'a>(sheet: &'a [u8], record: &Record, names: &[u32], number: usize) -> Result<&'a [u8], Refusal> {
    let mut place = calls::Place::default();
    // SAFETY: as in `load`.
    let found = unsafe { calls::da_name(sheet.as_ptr(), sheet.len(), record, names.as_ptr(), names.len(), number, &mut place) };
    if found {
        Ok(&sheet[place.offset..place.offset + place.length])
    } else {
        Err(Refusal { number: place.refusal, place: 0 })
    }
}
