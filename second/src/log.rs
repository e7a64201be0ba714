//! The log: entries one after another, three numbers each.

use crate::refusals;

/// The numbers of an entry.
pub const ENTRY: usize = 3;
/// Where path, register and value stand in an entry.
pub const PATH: usize = 0;
pub const REGISTER: usize = 1;
pub const VALUE: usize = 2;

/// The path of a program start.
pub const NO_PATH: u64 = 0;

/// The longest log in entries and in numbers.
pub const MOST_ENTRIES: u64 = 65_536;
pub const MOST_NUMBERS: usize = ENTRY * MOST_ENTRIES as usize;

/// The first counts of entries whose numbers come to 2^64, and to 2^65.
pub const WRAPS: u64 = wraps(1);
pub const WRAPS_TWICE: u64 = wraps(2);

const fn wraps(times: u128) -> u64 {
    (times << 64).div_ceil(ENTRY as u128) as u64
}

/// A register write or a program start.
#[derive(Clone, Copy, PartialEq, Eq, Debug, Default)]
pub struct Entry {
    pub path: u64,
    pub register: u64,
    pub value: u64,
}

impl Entry {
    /// Writes the entry's numbers from number `at` on.
    #[inline]
    fn put(&self, log: &mut [u64], at: usize) {
        log[at + PATH] = self.path;
        log[at + REGISTER] = self.register;
        log[at + VALUE] = self.value;
    }
}

/// The entries of one step, at most two, in order, all of one path.
#[derive(Clone, Copy)]
pub struct Entries {
    path: u64,
    entries: [Entry; 2],
    count: usize,
}

impl Entries {
    #[inline]
    pub fn of_path(path: u64) -> Entries {
        Entries {
            path,
            entries: [Entry::default(); 2],
            count: 0,
        }
    }

    #[inline]
    pub fn add(&mut self, register: u64, value: u64) {
        self.entries[self.count] = Entry {
            path: self.path,
            register,
            value,
        };
        self.count += 1;
    }
}

/// The numbers of so many entries, which a log can have.
#[inline]
pub fn numbers(entries: u64) -> usize {
    ENTRY * entries as usize
}

/// The same for any count of entries, modulo 2^64.
pub fn numbers_wrap(entries: u64) -> u64 {
    entries.wrapping_mul(ENTRY as u64)
}

/// The length of a log with so many entries, as cases give it.
pub fn length(entries: u64) -> u32 {
    numbers(entries) as u32
}

/// Whether a log of `length` numbers has whole entries only.
#[inline]
pub fn is_whole(length: usize) -> bool {
    length % ENTRY == 0
}

/// Whether a log of `length` numbers holds so many entries.
#[inline]
pub fn holds(length: usize, used: u64) -> bool {
    ENTRY as u128 * used as u128 <= length as u128
}

/// Whether a log of `length` numbers with `used` entries passes refusal 4.
#[inline]
pub fn in_range(length: usize, used: u64) -> bool {
    is_whole(length) && length <= MOST_NUMBERS && holds(length, used)
}

/// The entries that a log in range has room for.
pub fn room(length: usize, used: u64) -> u64 {
    (length / ENTRY) as u64 - used
}

/// Whether a log in range is full.
pub fn is_full(length: usize, used: u64) -> bool {
    room(length, used) == 0
}

/// Appends the entries of a step to a log in range, all or none.
#[inline]
pub fn append(log: &mut [u64], used: &mut u64, step: &Entries) -> Result<(), u32> {
    let at = numbers(*used);
    if log.len() - at < ENTRY * step.count {
        return Err(refusals::ROOM);
    }
    for (i, entry) in step.entries[..step.count].iter().enumerate() {
        entry.put(log, at + ENTRY * i);
    }
    *used += step.count as u64;
    Ok(())
}

/// Appends any number of entries to a log in range, all or none.
pub fn append_all(log: &mut [u64], used: &mut u64, entries: &[Entry]) -> Result<(), u32> {
    if room(log.len(), *used) < entries.len() as u64 {
        return Err(refusals::ROOM);
    }
    for entry in entries {
        entry.put(log, numbers(*used));
        *used += 1;
    }
    Ok(())
}

#[cfg(test)]
mod tests {
    use super::*;

    #[test]
    fn lengths() {
        assert_eq!((ENTRY, MOST_NUMBERS), (3, 196_608));
        for (length, used, right) in [
            (0, 0, true),
            (0, 1, false),
            (1, 0, false),
            (2, 0, false),
            (3, 0, true),
            (3, 1, true),
            (3, 2, false),
            (4, 1, false),
            (5, 1, false),
            (6, 3, false),
            (9, 3, true),
            (131_072, 0, false),
            (131_073, 43_691, true),
            (196_605, 65_535, true),
            (196_607, 0, false),
            (196_608, 65_536, true),
            (196_608, 65_537, false),
            (196_611, 0, false),
            (3, 0x5555_5555, false),
            (3, 0x5555_5556, false),
            (3, 1 << 63, false),
            (3, u64::MAX, false),
        ] {
            assert_eq!(in_range(length, used), right, "{length}, {used}");
        }
    }

    /// The counts whose triple passes 2^64 - 1, each with what is left of it.
    #[test]
    fn counts_that_wrap() {
        assert_eq!(WRAPS, 0x5555_5555_5555_5556);
        assert_eq!(WRAPS_TWICE, 0xAAAA_AAAA_AAAA_AAAB);
        for (used, left) in [
            (WRAPS - 1, u64::MAX),
            (WRAPS, 2),
            (WRAPS_TWICE - 1, u64::MAX - 1),
            (WRAPS_TWICE, 1),
        ] {
            assert_eq!(numbers_wrap(used), left);
            assert!(!in_range(MOST_NUMBERS, used));
        }
    }

    #[test]
    fn all_or_none() {
        let entry = |register, value| Entry {
            path: 3,
            register,
            value,
        };
        let mut step = Entries::of_path(3);
        step.add(1, 2);
        step.add(3, 4);
        let all = [entry(1, 2), entry(3, 4)];
        let written = [9, 9, 9, 3, 1, 2, 3, 3, 4];
        let (mut log, mut used) = ([9; 9], 1);
        assert_eq!(append(&mut log, &mut used, &step), Ok(()));
        assert_eq!((log, used), (written, 3));
        let (mut log, mut used) = ([9; 9], 1);
        assert_eq!(append_all(&mut log, &mut used, &all), Ok(()));
        assert_eq!((log, used), (written, 3));
        let (mut log, mut used) = ([9; 9], 2);
        assert_eq!(append(&mut log, &mut used, &step), Err(31));
        assert_eq!(append_all(&mut log, &mut used, &all), Err(31));
        assert_eq!((log, used), ([9; 9], 2));
        let nothing = Entries::of_path(3);
        assert_eq!(append(&mut log, &mut used, &nothing), Ok(()));
        assert_eq!((log, used), ([9; 9], 2));
    }
}
