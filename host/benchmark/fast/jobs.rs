//! The jobs to plan, and the walk over their boundaries.

pub const MOST_JOBS: usize = 32;
pub const SLOTS: usize = 168;
pub const MOST_MACHINES: u32 = 64;

/// Jobs whose fields are in range, one array to a field, so that a sum over all of them is a few wide
/// instructions. Places after the last job are zero.
pub struct Jobs {
    pub len: usize,
    pub number: [u16; MOST_JOBS],
    pub work: [u16; MOST_JOBS],
    pub deadline: [u16; MOST_JOBS],
    pub bound: [u16; MOST_JOBS],
}

impl Jobs {
    pub fn none() -> Jobs {
        Jobs {
            len: 0,
            number: [0; MOST_JOBS],
            work: [0; MOST_JOBS],
            deadline: [0; MOST_JOBS],
            bound: [0; MOST_JOBS],
        }
    }

    pub fn push(&mut self, number: u32, work: u32, deadline: u32, bound: u32) {
        self.set(self.len, [number, work, deadline, bound]);
        self.len += 1;
    }

    pub fn pop(&mut self) {
        self.len -= 1;
        self.set(self.len, [0; 4]);
    }

    fn set(&mut self, at: usize, [number, work, deadline, bound]: [u32; 4]) {
        self.number[at] = number as u16;
        self.work[at] = work as u16;
        self.deadline[at] = deadline as u16;
        self.bound[at] = bound as u16;
    }

    /// Whether the number is a job's. All places are compared, without a branch; no job has number 0.
    pub fn has(&self, number: u32) -> bool {
        let same = |&other: &u16| u32::from(other) == number;
        self.number.iter().map(same).fold(false, |a, b| a | b)
    }

    /// The least short boundary and its shortage.
    pub fn least_short(&self, machines: u32) -> Option<(u32, u32)> {
        self.boundaries().find_map(|b| {
            let forced = self.forced(b);
            let capacity = machines * u32::from(b);
            (forced > capacity).then(|| (u32::from(b), forced - capacity))
        })
    }

    /// The work forced into slots 1 to b. A bound times a deadline is at most 64 × 168, so 16 bits
    /// are enough for each job; an unused place forces nothing.
    fn forced(&self, b: u16) -> u32 {
        let of_job = |j: usize| {
            let later = self.deadline[j].saturating_sub(b);
            u32::from(self.work[j].saturating_sub(self.bound[j] * later))
        };
        (0..MOST_JOBS).map(of_job).sum()
    }

    /// 0 and the deadlines, rising, each once: they are kept as bits.
    fn boundaries(&self) -> impl Iterator<Item = u16> {
        let mut bits = [0u64; SLOTS / 64 + 1];
        bits[0] = 1;
        for &deadline in &self.deadline[..self.len] {
            bits[usize::from(deadline / 64)] |= 1 << (deadline % 64);
        }
        (0..).step_by(64).zip(bits).flat_map(|(from, word)| {
            let mut word = word;
            std::iter::from_fn(move || {
                let bit = (word != 0).then(|| from + word.trailing_zeros() as u16);
                word &= word.wrapping_sub(1);
                bit
            })
        })
    }
}
