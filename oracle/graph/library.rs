// This library's C interface, as include/lashgranary.h has it.
unsafe extern "C" {
    pub fn lash_add_label(
        kind: u32, mode: u32, k: usize, n: usize, keys: *mut u64, keys_len: usize, counts: *mut u32, counts_len: usize, label: *const u8,
        label_len: usize, figures: *mut u64, figures_len: usize,
    ) -> u32;
    pub fn lash_add_labels(
        kind: u32, mode: u32, k: usize, n: usize, keys: *mut u64, keys_len: usize, counts: *mut u32, counts_len: usize, text: *const u8,
        text_len: usize, starts: *const u32, starts_len: usize, lengths: *const u32, lengths_len: usize, count: usize, totals: *mut u64,
        totals_len: usize, figures: *mut u64, figures_len: usize,
    ) -> u32;
    pub fn lash_contract(
        kind: u32, k: usize, cutoff: u32, n: usize, keys: *const u64, keys_len: usize, counts: *const u32, counts_len: usize, labels: *mut u8,
        labels_len: usize, starts: *mut u32, starts_len: usize, lengths: *mut u32, lengths_len: usize, marks: *mut u8, marks_len: usize,
        figures: *mut u64, figures_len: usize,
    ) -> u32;
    pub fn lash_write_fasta(
        labels: *const u8, labels_len: usize, starts: *const u32, starts_len: usize, lengths: *const u32, lengths_len: usize, count: usize,
        out: *mut u8, out_len: usize, figures: *mut u64, figures_len: usize,
    ) -> u32;
    pub fn lash_judge(
        kind: u32, k: usize, cutoff: u32, n: usize, keys: *const u64, keys_len: usize, counts: *const u32, counts_len: usize, text: *const u8,
        text_len: usize, marks: *mut u8, marks_len: usize, figures: *mut u64, figures_len: usize,
    ) -> u32;
    pub fn lash_panel(
        k: usize, cutoff: u32, probe: usize, least: usize, most: usize, labels: *const u8, labels_len: usize, starts: *const u32, starts_len: usize,
        lengths: *const u32, lengths_len: usize, count: usize, out: *mut u32, out_len: usize, figures: *mut u64, figures_len: usize,
    ) -> u32;
    pub fn lash_pack_coordinate(worker: u64, index: u64, figures: *mut u64, figures_len: usize) -> u32;
    pub fn lash_unpack_coordinate(coordinate: u64, figures: *mut u64, figures_len: usize) -> u32;
    pub fn lash_pack_run(offset: u32, coordinate: u64, figures: *mut u64, figures_len: usize) -> u32;
    pub fn lash_unpack_run(run: u64, figures: *mut u64, figures_len: usize) -> u32;
    pub fn lash_check_runs(runs: *const u64, runs_len: usize, kmers: usize) -> u32;
    pub fn lash_color_at(runs: *const u64, runs_len: usize, kmers: usize, vertex: u32, figures: *mut u64, figures_len: usize) -> u32;
    pub fn lash_write_colors(
        runs: *const u64, runs_len: usize, kmers: usize, out: *mut u64, out_len: usize, figures: *mut u64, figures_len: usize,
    ) -> u32;
}
