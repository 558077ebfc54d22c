//! The functions of the library as they stand: what `include/wsf.h` declares.

/// What `wsf_fold` returns.
#[repr(C)]
#[derive(Clone, Copy, PartialEq, Eq, Debug)]
pub struct WsfAnswer {
    /// 0 if the file was folded, else the number of the row that refuses it, 1 to 11.
    pub number: u64,
    /// How many bytes of the output are the result; 0 for a refusal.
    pub length: u64,
    /// How many declarators were folded; 0 for a refusal.
    pub folds: u64,
}

/// What `wsf_fold_until_steady` returns.
#[repr(C)]
#[derive(Clone, Copy, PartialEq, Eq, Debug)]
pub struct WsfSteady {
    /// 0 if the file was folded, else the number of the row that refuses it, 1 to 11.
    pub number: u64,
    /// How many bytes of the output are the last result; 0 for a refusal.
    pub length: u64,
    /// How many declarators all runs folded; 0 for a refusal.
    pub folds: u64,
    /// How many runs were made, the last one counted, which changed nothing; 0 for a refusal.
    pub runs: u64,
}

/// What `wsf_measure` returns.
#[repr(C)]
#[derive(Clone, Copy, PartialEq, Eq, Debug)]
pub struct WsfMeasure {
    /// 0 if the file was measured, else the number of the row that refuses it, 1 to 10.
    pub number: u64,
    /// How many bytes the result of `wsf_fold` has; 0 for a refusal.
    pub length: u64,
    /// How often the searches of that fold enter an expression; 0 for a refusal.
    pub looks: u64,
}

unsafe extern "C" {
    /// Folds a file.
    ///
    /// # Safety
    ///
    /// `file` can be read for `file_length` bytes and `output` be read and written for
    /// `output_length`; they don't overlap, and neither is null, not even with a length of 0.
    pub fn wsf_fold(
        file: *const u8,
        file_length: usize,
        output: *mut u8,
        output_length: usize,
    ) -> WsfAnswer;

    /// Folds a file until a run changes nothing.
    ///
    /// # Safety
    ///
    /// As for `wsf_fold`.
    pub fn wsf_fold_until_steady(
        file: *const u8,
        file_length: usize,
        output: *mut u8,
        output_length: usize,
    ) -> WsfSteady;

    /// Measures the fold of a file.
    ///
    /// # Safety
    ///
    /// `file` can be read for `file_length` bytes; it isn't null, not even with a length of 0.
    pub fn wsf_measure(file: *const u8, file_length: usize) -> WsfMeasure;
}
