//! The functions of libberzhotun.a, as include/berzhotun.h declares them.

extern "C" {
    pub fn berzhotun_from_str(
        text: *const u8,
        text_len: usize,
        words: *mut u64,
        words_len: usize,
        names: *mut u8,
        names_len: usize,
        values: *mut [u64; 3],
    ) -> u64;
    pub fn berzhotun_from_str_strict(
        text: *const u8,
        text_len: usize,
        words: *mut u64,
        words_len: usize,
        names: *mut u8,
        names_len: usize,
        values: *mut [u64; 3],
    ) -> u64;
    pub fn berzhotun_from_start_of_str(
        text: *const u8,
        text_len: usize,
        words: *mut u64,
        words_len: usize,
        names: *mut u8,
        names_len: usize,
        values: *mut [u64; 3],
    ) -> u64;
    pub fn berzhotun_signature(
        text: *const u8,
        text_len: usize,
        list: *mut u64,
        list_len: usize,
        values: *mut [u64; 3],
    ) -> u64;
    pub fn berzhotun_equivalent_to(
        a_words: *const u64,
        a_words_len: usize,
        a_names: *const u8,
        a_names_len: usize,
        b_words: *const u64,
        b_words_len: usize,
        b_names: *const u8,
        b_names_len: usize,
        answer: *mut [u64; 1],
    ) -> u64;
    pub fn berzhotun_equivalent_to_box(
        a_words: *const u64,
        a_words_len: usize,
        a_names: *const u8,
        a_names_len: usize,
        b_words: *const u64,
        b_words_len: usize,
        b_names: *const u8,
        b_names_len: usize,
        answer: *mut [u64; 1],
    ) -> u64;
    pub fn berzhotun_eq(
        a_words: *const u64,
        a_words_len: usize,
        a_names: *const u8,
        a_names_len: usize,
        b_words: *const u64,
        b_words_len: usize,
        b_names: *const u8,
        b_names_len: usize,
        answer: *mut [u64; 1],
    ) -> u64;
    pub fn berzhotun_reason_len(
        a_words: *const u64,
        a_words_len: usize,
        a_names: *const u8,
        a_names_len: usize,
        b_words: *const u64,
        b_words_len: usize,
        b_names: *const u8,
        b_names_len: usize,
        answer: *mut [u64; 2],
    ) -> u64;
    pub fn berzhotun_reason(
        a_words: *const u64,
        a_words_len: usize,
        a_names: *const u8,
        a_names_len: usize,
        b_words: *const u64,
        b_words_len: usize,
        b_names: *const u8,
        b_names_len: usize,
        out: *mut u8,
        out_len: usize,
        answer: *mut [u64; 2],
    ) -> u64;
    pub fn berzhotun_reason_all_len(
        a_words: *const u64,
        a_words_len: usize,
        a_names: *const u8,
        a_names_len: usize,
        b_words: *const u64,
        b_words_len: usize,
        b_names: *const u8,
        b_names_len: usize,
        answer: *mut [u64; 2],
    ) -> u64;
    pub fn berzhotun_reason_all(
        a_words: *const u64,
        a_words_len: usize,
        a_names: *const u8,
        a_names_len: usize,
        b_words: *const u64,
        b_words_len: usize,
        b_names: *const u8,
        b_names_len: usize,
        out: *mut u8,
        out_len: usize,
        answer: *mut [u64; 2],
    ) -> u64;
    pub fn berzhotun_equivalent_to_str(
        words: *const u64,
        words_len: usize,
        names: *const u8,
        names_len: usize,
        text: *const u8,
        text_len: usize,
        answer: *mut [u64; 1],
    ) -> u64;
    pub fn berzhotun_size(
        words: *const u64,
        words_len: usize,
        names: *const u8,
        names_len: usize,
        row: u64,
        answer: *mut [u64; 2],
    ) -> u64;
    pub fn berzhotun_layout(
        words: *const u64,
        words_len: usize,
        names: *const u8,
        names_len: usize,
        row: u64,
        offsets: *mut u64,
        offsets_len: usize,
        answer: *mut [u64; 3],
    ) -> u64;
    pub fn berzhotun_static_encoding_str_len(
        words: *const u64,
        words_len: usize,
        names: *const u8,
        names_len: usize,
        answer: *mut [u64; 1],
    ) -> u64;
    pub fn berzhotun_static_encoding_str_array(
        words: *const u64,
        words_len: usize,
        names: *const u8,
        names_len: usize,
        out: *mut u8,
        out_len: usize,
        answer: *mut [u64; 1],
    ) -> u64;
}
