//! A FastTrack detector: vector clocks for the tasks, epochs for the last write and, where they
//! are enough, for the last read of each location; a vector of reads where several unordered tasks
//! have read. Sums, of which several may be unordered too, are kept as reads are. It answers whether
//! and where the first race is, and does less than the judge: no line rules, no partner, no orders.
//!
//! Tuned: 16-bit clocks, vectors only as long as the highest task number met, all memory kept
//! between calls, no index checked for an access.

use crate::trace::*;

/// A clock in the upper half, the task that it belongs to in the lower. 0 is earlier than all.
type Epoch = u32;

/// In the place of the epoch of a read or a sum: they are in a vector, whose number is in the lower
/// half.
const SHARED: Epoch = 1 << 31;

#[derive(Clone, Copy)]
struct Location {
    write: Epoch,
    read: Epoch,
    sum: Epoch,
}

const UNTOUCHED: Location = Location { write: 0, read: 0, sum: 0 };

pub struct FastTrack {
    clocks: Vec<i16>,
    lengths: Vec<usize>,
    locations: Vec<Location>,
    vectors: Vec<i16>,
    free: Vec<u16>,
}

/// For each location one of reads and one of sums.
const VECTORS: usize = 2 * LOCATIONS;

impl Default for FastTrack {
    fn default() -> Self {
        FastTrack {
            clocks: vec![0; TASKS * TASKS],
            lengths: vec![0; TASKS],
            locations: vec![UNTOUCHED; LOCATIONS],
            vectors: vec![0; VECTORS * TASKS],
            free: Vec::with_capacity(VECTORS),
        }
    }
}

impl FastTrack {
    /// The position of the first access that races with an earlier one.
    ///
    /// # Safety
    ///
    /// The trace keeps the rules, so that its tasks and operands are below 1,024.
    pub unsafe fn first_race(&mut self, trace: &Trace) -> Option<usize> {
        self.reset();
        let n = trace.len();
        let (kinds, tasks, operands) = (&trace.kinds[..n], &trace.tasks[..n], &trace.operands[..n]);
        for i in 0..n {
            let (x, o) = (tasks[i] as usize, operands[i] as usize);
            debug_assert!(x < TASKS && o < TASKS);
            let passed = match kinds[i] {
                READ => self.access::<READ>(x, o),
                WRITE => self.access::<WRITE>(x, o),
                SUM => self.access::<SUM>(x, o),
                FORK => self.fork(x, o),
                JOIN => self.join(x, o),
                _ => true,
            };
            if !passed {
                return Some(i);
            }
        }
        None
    }

    fn reset(&mut self) {
        self.locations.fill(UNTOUCHED);
        self.free.clear();
        self.free.extend(0..VECTORS as u16);
        self.clocks[0] = 1;
        self.lengths[0] = 1;
    }

    #[inline(always)]
    unsafe fn clock(&self, x: usize, of: usize) -> u32 {
        if of < *self.lengths.get_unchecked(x) {
            *self.clocks.get_unchecked(x * TASKS + of) as u32
        } else {
            0
        }
    }

    #[inline(always)]
    unsafe fn now(&self, x: usize) -> Epoch {
        (*self.clocks.get_unchecked(x * TASKS + x) as u32) << 16 | x as u32
    }

    /// Whether what happened at an epoch reaches task x's next event.
    #[inline(always)]
    unsafe fn before(&self, epoch: Epoch, x: usize) -> bool {
        epoch >> 16 <= self.clock(x, (epoch & 0xffff) as usize)
    }

    /// Whether an access to location l by task x passes. One at the epoch of the last of its kind
    /// does; else all are held to the last write, all but reads to the reads, all but sums to the
    /// sums.
    #[inline(always)]
    unsafe fn access<const KIND: u8>(&mut self, x: usize, l: usize) -> bool {
        let now = self.now(x);
        let Location { write, read, sum } = *self.locations.get_unchecked(l);
        let last = match KIND {
            READ => read,
            WRITE => write,
            _ => sum,
        };
        if now == last {
            return true;
        }
        if !self.before(write, x) || KIND != READ && !self.are_before(read, x) {
            return false;
        }
        // Most locations have no sums.
        if KIND != SUM && sum != 0 && !self.are_before(sum, x) {
            return false;
        }
        match KIND {
            READ => self.locations.get_unchecked_mut(l).read = self.noted(x, read, now),
            WRITE => self.note_write(l, read, sum, now),
            _ => self.locations.get_unchecked_mut(l).sum = self.noted(x, sum, now),
        }
        true
    }

    /// Whether the reads or the sums that an epoch stands for reach task x's next event.
    #[inline(always)]
    unsafe fn are_before(&self, epoch: Epoch, x: usize) -> bool {
        if epoch & SHARED != 0 {
            return self.all_before((epoch & 0xffff) as usize, x);
        }
        self.before(epoch, x)
    }

    /// What stands for the reads or the sums once there is one more, by task x.
    #[inline(always)]
    unsafe fn noted(&mut self, x: usize, epoch: Epoch, now: Epoch) -> Epoch {
        if epoch & SHARED != 0 {
            let row = (epoch & 0xffff) as usize;
            *self.vectors.get_unchecked_mut(row * TASKS + x) = (now >> 16) as i16;
            return epoch;
        }
        if self.before(epoch, x) {
            return now;
        }
        self.share(x, epoch)
    }

    #[cold]
    fn share(&mut self, x: usize, epoch: Epoch) -> Epoch {
        let row = self.free.pop().expect("two vectors for each location") as usize;
        let vector = &mut self.vectors[row * TASKS..][..TASKS];
        vector.fill(0);
        vector[(epoch & 0xffff) as usize] = (epoch >> 16) as i16;
        vector[x] = self.clocks[x * TASKS + x];
        SHARED | row as u32
    }

    /// All that came before reaches the write: vectors are free again.
    #[inline(always)]
    unsafe fn note_write(&mut self, l: usize, read: Epoch, sum: Epoch, now: Epoch) {
        let location = self.locations.get_unchecked_mut(l);
        location.write = now;
        if read & SHARED != 0 {
            self.free.push(read as u16);
            location.read = 0;
        }
        if sum & SHARED != 0 {
            self.free.push(sum as u16);
            location.sum = 0;
        }
    }

    #[inline(never)]
    fn all_before(&self, row: usize, x: usize) -> bool {
        let vector = &self.vectors[row * TASKS..][..TASKS];
        let length = self.lengths[x];
        let clocks = &self.clocks[x * TASKS..][..length];
        let later = vector.iter().zip(clocks).fold(0, |n, (past, clock)| n | (past > clock) as i16);
        let beyond = vector[length..].iter().fold(0, |n, past| n | past);
        later == 0 && beyond == 0
    }

    /// The child starts with the parent's clocks and its own first tick; the parent ticks.
    #[inline(never)]
    fn fork(&mut self, x: usize, child: usize) -> bool {
        let length = self.lengths[x];
        let whole = length.max(child + 1);
        self.clocks.copy_within(x * TASKS..x * TASKS + length, child * TASKS);
        self.clocks[child * TASKS + length..child * TASKS + whole].fill(0);
        self.clocks[child * TASKS + child] = 1;
        self.lengths[child] = whole;
        self.clocks[x * TASKS + x] += 1;
        true
    }

    /// The joiner's clocks become the greater of both.
    #[inline(never)]
    fn join(&mut self, x: usize, joined: usize) -> bool {
        let (mine, theirs) = (self.lengths[x], self.lengths[joined]);
        let (low, high) = (x.min(joined), x.max(joined));
        let (head, tail) = self.clocks.split_at_mut(high * TASKS);
        let (low_row, high_row) = (&mut head[low * TASKS..][..TASKS], &mut tail[..TASKS]);
        let (to, from) = if x < joined { (low_row, high_row) } else { (high_row, low_row) };
        for (clock, other) in to[..mine.min(theirs)].iter_mut().zip(from.iter()) {
            *clock = (*clock).max(*other);
        }
        if mine < theirs {
            to[mine..theirs].copy_from_slice(&from[mine..theirs]);
            self.lengths[x] = theirs;
        }
        true
    }
}
