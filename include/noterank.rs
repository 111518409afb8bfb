//! The functions of noterank.h, for Rust: one declaration for the bindings, the oracle and the benchmarks.

extern "C" {
    pub fn noterank_check(file: *const u8, file_len: usize) -> u32;

    pub fn noterank_run(
        file: *const u8,
        file_len: usize,
        query: *const u32,
        query_len: usize,
        walk: u32,
        mode: u32,
        scoring: u32,
        rule: u32,
        start: f32,
        k: u32,
        script: *const f32,
        script_len: usize,
        documents: *mut u32,
        documents_len: usize,
        scores: *mut f32,
        scores_len: usize,
        count: *mut u32,
    ) -> u32;

    #[allow(dead_code)] // The bindings do not call it.
    pub fn noterank_find(
        file: *const u8,
        file_len: usize,
        query: *const u32,
        query_len: usize,
        mode: u32,
        scoring: u32,
        start: f32,
        k: u32,
        report_documents: *mut u32,
        report_documents_len: usize,
        report_scores: *mut f32,
        report_scores_len: usize,
        documents: *mut u32,
        documents_len: usize,
        scores: *mut f32,
        scores_len: usize,
        count: *mut u32,
    ) -> u32;

    pub fn noterank_write(
        documents: u32,
        kind: u32,
        code: u32,
        norms: *const u8,
        norms_len: usize,
        average: f32,
        weights: *const f32,
        weights_len: usize,
        counts: *const u32,
        counts_len: usize,
        docs: *const u32,
        docs_len: usize,
        freqs: *const u32,
        freqs_len: usize,
        out: *mut u8,
        out_len: usize,
        length: *mut u32,
    ) -> u32;
}
