//! Our compiler through its C entries: the declarations of include/agnulfrosc.h, and a safe function for each.

unsafe extern "C" {
    fn agnulfrosc_judge(words: *const u32, words_len: usize, functions: *const u64, functions_len: usize) -> u8;
    fn agnulfrosc_strings(
        words: *const u32,
        words_len: usize,
        ends: *const u32,
        ends_len: usize,
        globals: *mut u64,
        globals_len: usize,
        answer: *mut u64,
        answer_len: usize,
    ) -> u8;
    fn agnulfrosc_compile(
        words: *const u32,
        words_len: usize,
        functions: *mut u64,
        functions_len: usize,
        ops: *mut u64,
        ops_len: usize,
        spans: *mut u32,
        spans_len: usize,
        globals: *mut u64,
        globals_len: usize,
        builtins: *mut u32,
        builtins_len: usize,
        switches: *mut u64,
        switches_len: usize,
        targets: *mut u32,
        targets_len: usize,
        lookups: *mut u64,
        lookups_len: usize,
        values: *mut u64,
        values_len: usize,
        places: *mut u32,
        places_len: usize,
        hints: *mut u32,
        hints_len: usize,
        noted: *mut u64,
        noted_len: usize,
        labels: *mut u64,
        labels_len: usize,
        used: *mut u64,
        used_len: usize,
    ) -> u8;
    fn agnulfrosc_compact(
        ops: *mut u64,
        ops_len: usize,
        spans: *mut u32,
        spans_len: usize,
        targets: *mut u32,
        targets_len: usize,
        functions: *mut u64,
        functions_len: usize,
        work: *mut u32,
        work_len: usize,
        used: *mut u64,
        used_len: usize,
    ) -> u8;
}

// liballoc_calls.a, which only times are taken of
unsafe extern "C" {
    fn agnulfrosc_place_calls(calls: *const u32, calls_len: usize, pool: *const u8, pool_len: usize, map: *mut u32, map_len: usize) -> u16;
}

/// Placements one after the other from a fresh state: row, end and hint of each; how many slots were made.
pub fn place_calls(calls: &[u32], pool: &[u8], map: &mut [u32]) -> u16 {
    // SAFETY: each pointer goes with the length of its slice.
    unsafe { agnulfrosc_place_calls(calls.as_ptr(), calls.len(), pool.as_ptr(), pool.len(), map.as_mut_ptr(), map.len()) }
}

/// How much of each buffer is used, in the order of the C entry.
#[derive(Clone, Copy, Debug, Default, PartialEq)]
#[repr(C)]
pub struct Used {
    pub ops: u64,
    pub globals: u64,
    pub builtins: u64,
    pub switches: u64,
    pub targets: u64,
    pub lookups: u64,
    pub values: u64,
}

impl Used {
    fn words(self) -> [u64; 7] {
        [self.ops, self.globals, self.builtins, self.switches, self.targets, self.lookups, self.values]
    }

    fn of(w: [u64; 7]) -> Self {
        Self { ops: w[0], globals: w[1], builtins: w[2], switches: w[3], targets: w[4], lookups: w[5], values: w[6] }
    }
}

/// Every buffer that compiling is lent, and the used lengths.
#[derive(Clone, Debug, Default, PartialEq)]
pub struct Lent {
    pub functions: Vec<u64>,
    pub ops: Vec<u64>,
    pub spans: Vec<u32>,
    pub globals: Vec<u64>,
    pub builtins: Vec<u32>,
    pub switches: Vec<u64>,
    pub targets: Vec<u32>,
    pub lookups: Vec<u64>,
    pub values: Vec<u64>,
    pub places: Vec<u32>,
    pub hints: Vec<u32>,
    pub noted: Vec<u64>,
    pub labels: Vec<u64>,
    pub used: Used,
}

pub fn judge(words: &[u32], functions: &[u64]) -> u32 {
    // SAFETY: each pointer goes with the length of its slice.
    unsafe { agnulfrosc_judge(words.as_ptr(), words.len(), functions.as_ptr(), functions.len()) as u32 }
}

impl Lent {
    /// The number; the buffers and used lengths are as it leaves them.
    pub fn compile(&mut self, words: &[u32]) -> u32 {
        let mut used = self.used.words();
        // SAFETY: each pointer goes with the length of its buffer, and no two buffers overlap.
        let number = unsafe {
            agnulfrosc_compile(
                words.as_ptr(),
                words.len(),
                self.functions.as_mut_ptr(),
                self.functions.len(),
                self.ops.as_mut_ptr(),
                self.ops.len(),
                self.spans.as_mut_ptr(),
                self.spans.len(),
                self.globals.as_mut_ptr(),
                self.globals.len(),
                self.builtins.as_mut_ptr(),
                self.builtins.len(),
                self.switches.as_mut_ptr(),
                self.switches.len(),
                self.targets.as_mut_ptr(),
                self.targets.len(),
                self.lookups.as_mut_ptr(),
                self.lookups.len(),
                self.values.as_mut_ptr(),
                self.values.len(),
                self.places.as_mut_ptr(),
                self.places.len(),
                self.hints.as_mut_ptr(),
                self.hints.len(),
                self.noted.as_mut_ptr(),
                self.noted.len(),
                self.labels.as_mut_ptr(),
                self.labels.len(),
                used.as_mut_ptr(),
                used.len(),
            )
        };
        self.used = Used::of(used);
        number as u32
    }

    /// The number, and the index of the function that is refused; the functions stand one behind the other and end at `ends`.
    pub fn strings(&mut self, words: &[u32], ends: &[u32]) -> (u32, u64) {
        let mut answer = [self.used.globals, u64::MAX];
        // SAFETY: as above.
        let number = unsafe {
            agnulfrosc_strings(
                words.as_ptr(),
                words.len(),
                ends.as_ptr(),
                ends.len(),
                self.globals.as_mut_ptr(),
                self.globals.len(),
                answer.as_mut_ptr(),
                answer.len(),
            )
        };
        self.used.globals = answer[0];
        (number as u32, answer[1])
    }

    /// Nop compaction of the program so far.
    pub fn compact(&mut self, work: &mut [u32]) -> u32 {
        let mut used = [self.used.ops, self.used.targets];
        // SAFETY: as above.
        let number = unsafe {
            agnulfrosc_compact(
                self.ops.as_mut_ptr(),
                self.ops.len(),
                self.spans.as_mut_ptr(),
                self.spans.len(),
                self.targets.as_mut_ptr(),
                self.targets.len(),
                self.functions.as_mut_ptr(),
                self.functions.len(),
                work.as_mut_ptr(),
                work.len(),
                used.as_mut_ptr(),
                used.len(),
            )
        };
        self.used.ops = used[0];
        number as u32
    }
}
