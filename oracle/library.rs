//! Berzhotun's exported functions. Each call gets room for four answers, filled with a mark, so
//! that a reply also shows what was not written.

/// What stands in lent memory before a call.
pub const MARK: u64 = 0xa5a5_a5a5_a5a5_a5a5;
pub const MARK_BYTE: u8 = 0xa5;

/// The returned number (0 accepted, else the refusal), and the answers with the marks left over.
pub type Reply = (u64, [u64; 4]);

/// The reply that has these answers and nothing else written.
pub fn reply(refusal: u64, answers: &[u64]) -> Reply {
    let mut all = [MARK; 4];
    all[..answers.len()].copy_from_slice(answers);
    (refusal, all)
}

/// The two lists of a sheet, as they are lent.
#[derive(Clone, Copy)]
pub struct Sheet<'a> {
    pub words: &'a [u64],
    pub names: &'a [u8],
}

mod exported {
    extern "C" {
        pub fn berzhotun_equivalent_to(
            a_words: *const u64,
            a_words_len: usize,
            a_names: *const u8,
            a_names_len: usize,
            b_words: *const u64,
            b_words_len: usize,
            b_names: *const u8,
            b_names_len: usize,
            answer: *mut u64,
        ) -> u64;
        pub fn berzhotun_equivalent_to_box(
            a_words: *const u64,
            a_words_len: usize,
            a_names: *const u8,
            a_names_len: usize,
            b_words: *const u64,
            b_words_len: usize,
            b_names: *const u8,
            b_names_len: usize,
            answer: *mut u64,
        ) -> u64;
        pub fn berzhotun_eq(
            a_words: *const u64,
            a_words_len: usize,
            a_names: *const u8,
            a_names_len: usize,
            b_words: *const u64,
            b_words_len: usize,
            b_names: *const u8,
            b_names_len: usize,
            answer: *mut u64,
        ) -> u64;
        pub fn berzhotun_reason_len(
            a_words: *const u64,
            a_words_len: usize,
            a_names: *const u8,
            a_names_len: usize,
            b_words: *const u64,
            b_words_len: usize,
            b_names: *const u8,
            b_names_len: usize,
            answer: *mut u64,
        ) -> u64;
        pub fn berzhotun_reason(
            a_words: *const u64,
            a_words_len: usize,
            a_names: *const u8,
            a_names_len: usize,
            b_words: *const u64,
            b_words_len: usize,
            b_names: *const u8,
            b_names_len: usize,
            out: *mut u8,
            out_len: usize,
            answer: *mut u64,
        ) -> u64;
        pub fn berzhotun_reason_all_len(
            a_words: *const u64,
            a_words_len: usize,
            a_names: *const u8,
            a_names_len: usize,
            b_words: *const u64,
            b_words_len: usize,
            b_names: *const u8,
            b_names_len: usize,
            answer: *mut u64,
        ) -> u64;
        pub fn berzhotun_reason_all(
            a_words: *const u64,
            a_words_len: usize,
            a_names: *const u8,
            a_names_len: usize,
            b_words: *const u64,
            b_words_len: usize,
            b_names: *const u8,
            b_names_len: usize,
            out: *mut u8,
            out_len: usize,
            answer: *mut u64,
        ) -> u64;
        pub fn berzhotun_size(
            words: *const u64,
            words_len: usize,
            names: *const u8,
            names_len: usize,
            row: u64,
            answer: *mut u64,
        ) -> u64;
        pub fn berzhotun_layout(
            words: *const u64,
            words_len: usize,
            names: *const u8,
            names_len: usize,
            row: u64,
            offsets: *mut u64,
            offsets_len: usize,
            answer: *mut u64,
        ) -> u64;
        pub fn berzhotun_static_encoding_str_len(
            words: *const u64,
            words_len: usize,
            names: *const u8,
            names_len: usize,
            answer: *mut u64,
        ) -> u64;
        pub fn berzhotun_static_encoding_str_array(
            words: *const u64,
            words_len: usize,
            names: *const u8,
            names_len: usize,
            out: *mut u8,
            out_len: usize,
            answer: *mut u64,
        ) -> u64;
        pub fn berzhotun_from_str(
            text: *const u8,
            text_len: usize,
            words: *mut u64,
            words_len: usize,
            names: *mut u8,
            names_len: usize,
            values: *mut u64,
        ) -> u64;
        pub fn berzhotun_from_str_strict(
            text: *const u8,
            text_len: usize,
            words: *mut u64,
            words_len: usize,
            names: *mut u8,
            names_len: usize,
            values: *mut u64,
        ) -> u64;
        pub fn berzhotun_from_start_of_str(
            text: *const u8,
            text_len: usize,
            words: *mut u64,
            words_len: usize,
            names: *mut u8,
            names_len: usize,
            values: *mut u64,
        ) -> u64;
        pub fn berzhotun_equivalent_to_str(
            words: *const u64,
            words_len: usize,
            names: *const u8,
            names_len: usize,
            text: *const u8,
            text_len: usize,
            answer: *mut u64,
        ) -> u64;
        pub fn berzhotun_signature(
            text: *const u8,
            text_len: usize,
            list: *mut u64,
            list_len: usize,
            values: *mut u64,
        ) -> u64;
    }
}

type PairCall = unsafe extern "C" fn(
    *const u64,
    usize,
    *const u8,
    usize,
    *const u64,
    usize,
    *const u8,
    usize,
    *mut u64,
) -> u64;

fn pair(call: PairCall, a: Sheet, b: Sheet) -> Reply {
    let mut answers = [MARK; 4];
    // SAFETY: each pointer goes with the length of its own list.
    let refusal = unsafe {
        call(
            a.words.as_ptr(),
            a.words.len(),
            a.names.as_ptr(),
            a.names.len(),
            b.words.as_ptr(),
            b.words.len(),
            b.names.as_ptr(),
            b.names.len(),
            answers.as_mut_ptr(),
        )
    };
    (refusal, answers)
}

pub fn equivalent_to(a: Sheet, b: Sheet) -> Reply {
    pair(exported::berzhotun_equivalent_to, a, b)
}

pub fn equivalent_to_box(a: Sheet, b: Sheet) -> Reply {
    pair(exported::berzhotun_equivalent_to_box, a, b)
}

pub fn eq(a: Sheet, b: Sheet) -> Reply {
    pair(exported::berzhotun_eq, a, b)
}

pub fn reason_len(a: Sheet, b: Sheet) -> Reply {
    pair(exported::berzhotun_reason_len, a, b)
}

pub fn reason_all_len(a: Sheet, b: Sheet) -> Reply {
    pair(exported::berzhotun_reason_all_len, a, b)
}

type ReasonCall = unsafe extern "C" fn(
    *const u64,
    usize,
    *const u8,
    usize,
    *const u64,
    usize,
    *const u8,
    usize,
    *mut u8,
    usize,
    *mut u64,
) -> u64;

fn written(call: ReasonCall, a: Sheet, b: Sheet, out: &mut [u8]) -> Reply {
    let mut answers = [MARK; 4];
    // SAFETY: as in `pair`.
    let refusal = unsafe {
        call(
            a.words.as_ptr(),
            a.words.len(),
            a.names.as_ptr(),
            a.names.len(),
            b.words.as_ptr(),
            b.words.len(),
            b.names.as_ptr(),
            b.names.len(),
            out.as_mut_ptr(),
            out.len(),
            answers.as_mut_ptr(),
        )
    };
    (refusal, answers)
}

/// Lends the first `lent` bytes of `out`.
pub fn reason(a: Sheet, b: Sheet, out: &mut [u8], lent: usize) -> Reply {
    written(exported::berzhotun_reason, a, b, &mut out[..lent])
}

/// The same.
pub fn reason_all(a: Sheet, b: Sheet, out: &mut [u8], lent: usize) -> Reply {
    written(exported::berzhotun_reason_all, a, b, &mut out[..lent])
}

pub fn size(sheet: Sheet, row: u64) -> Reply {
    let mut answers = [MARK; 4];
    let Sheet { words, names } = sheet;
    // SAFETY: as in `pair`.
    let refusal = unsafe {
        exported::berzhotun_size(
            words.as_ptr(),
            words.len(),
            names.as_ptr(),
            names.len(),
            row,
            answers.as_mut_ptr(),
        )
    };
    (refusal, answers)
}

/// Lends the first `lent` numbers of `offsets`.
pub fn layout(sheet: Sheet, row: u64, offsets: &mut [u64], lent: usize) -> Reply {
    let mut answers = [MARK; 4];
    let Sheet { words, names } = sheet;
    let lent = &mut offsets[..lent];
    // SAFETY: as in `pair`.
    let refusal = unsafe {
        exported::berzhotun_layout(
            words.as_ptr(),
            words.len(),
            names.as_ptr(),
            names.len(),
            row,
            lent.as_mut_ptr(),
            lent.len(),
            answers.as_mut_ptr(),
        )
    };
    (refusal, answers)
}

pub fn static_encoding_str_len(sheet: Sheet) -> Reply {
    let mut answers = [MARK; 4];
    let Sheet { words, names } = sheet;
    // SAFETY: as in `pair`.
    let refusal = unsafe {
        exported::berzhotun_static_encoding_str_len(
            words.as_ptr(),
            words.len(),
            names.as_ptr(),
            names.len(),
            answers.as_mut_ptr(),
        )
    };
    (refusal, answers)
}

/// Lends the first `lent` bytes of `out`.
pub fn static_encoding_str_array(sheet: Sheet, out: &mut [u8], lent: usize) -> Reply {
    let mut answers = [MARK; 4];
    let Sheet { words, names } = sheet;
    let lent = &mut out[..lent];
    // SAFETY: as in `pair`.
    let refusal = unsafe {
        exported::berzhotun_static_encoding_str_array(
            words.as_ptr(),
            words.len(),
            names.as_ptr(),
            names.len(),
            lent.as_mut_ptr(),
            lent.len(),
            answers.as_mut_ptr(),
        )
    };
    (refusal, answers)
}

pub type Reader = fn(&[u8], &mut [u64], &mut [u8]) -> Reply;

pub fn from_str(text: &[u8], words: &mut [u64], names: &mut [u8]) -> Reply {
    let mut values = [MARK; 4];
    // SAFETY: as in `pair`.
    let refusal = unsafe {
        exported::berzhotun_from_str(
            text.as_ptr(),
            text.len(),
            words.as_mut_ptr(),
            words.len(),
            names.as_mut_ptr(),
            names.len(),
            values.as_mut_ptr(),
        )
    };
    (refusal, values)
}

pub fn from_str_strict(text: &[u8], words: &mut [u64], names: &mut [u8]) -> Reply {
    let mut values = [MARK; 4];
    // SAFETY: as in `pair`.
    let refusal = unsafe {
        exported::berzhotun_from_str_strict(
            text.as_ptr(),
            text.len(),
            words.as_mut_ptr(),
            words.len(),
            names.as_mut_ptr(),
            names.len(),
            values.as_mut_ptr(),
        )
    };
    (refusal, values)
}

pub fn from_start_of_str(text: &[u8], words: &mut [u64], names: &mut [u8]) -> Reply {
    let mut values = [MARK; 4];
    // SAFETY: as in `pair`.
    let refusal = unsafe {
        exported::berzhotun_from_start_of_str(
            text.as_ptr(),
            text.len(),
            words.as_mut_ptr(),
            words.len(),
            names.as_mut_ptr(),
            names.len(),
            values.as_mut_ptr(),
        )
    };
    (refusal, values)
}

pub fn signature(text: &[u8], list: &mut [u64]) -> Reply {
    let mut values = [MARK; 4];
    // SAFETY: as in `pair`.
    let refusal = unsafe {
        exported::berzhotun_signature(
            text.as_ptr(),
            text.len(),
            list.as_mut_ptr(),
            list.len(),
            values.as_mut_ptr(),
        )
    };
    (refusal, values)
}

pub fn equivalent_to_str(sheet: Sheet, text: &[u8]) -> Reply {
    let mut answers = [MARK; 4];
    let Sheet { words, names } = sheet;
    // SAFETY: as in `pair`.
    let refusal = unsafe {
        exported::berzhotun_equivalent_to_str(
            words.as_ptr(),
            words.len(),
            names.as_ptr(),
            names.len(),
            text.as_ptr(),
            text.len(),
            answers.as_mut_ptr(),
        )
    };
    (refusal, answers)
}
