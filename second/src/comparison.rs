//! The frame of a comparison: by seeds, on whole cases and on damaged files made from them.

use crate::compare::{report, Program};
use crate::damaged::Files;
use crate::random::Random;
use std::panic::resume_unwind;

/// A comparison on one kind of cases; `Cases` is what a seed gives, `Reached` what is counted.
pub struct Comparison<Cases, Reached> {
    pub cases: fn(u64, u64) -> Cases,
    /// Compares on a seed's cases, and counts what they reach.
    pub compare_cases: fn(&Program, &Cases, &mut Reached) -> Result<(), String>,
    /// Damaged files made from the cases.
    pub damaged: fn(&Cases, &mut Random) -> Files,
    /// Compares on a file, and counts nothing.
    pub compare_file: fn(&Program, &[u8]) -> Result<(), String>,
    /// Compares on what else there is for a seed; a difference is told after a name for it.
    pub compare_more: fn(&Program, u64, &Cases, &mut Reached) -> Result<(), String>,
    /// All that is to be reached, with how often it was by all seeds.
    pub rows: fn(&[Reached]) -> Rows,
}

/// Counts by name.
pub type Rows = Vec<(String, u64)>;

/// The sums of the rows of all.
pub fn sums<Reached>(all: &[Reached], rows: impl Fn(&Reached) -> Rows) -> Rows {
    let add = |sums: Rows, rows: Rows| {
        let both = sums.into_iter().zip(rows);
        both.map(|((name, sum), (_, count))| (name, sum + count))
            .collect()
    };
    all.iter().map(rows).reduce(add).unwrap_or_default()
}

impl<Cases, Reached: Default + Send> Comparison<Cases, Reached> {
    /// Compares on all seeds and reports what was reached, and how many points, worked by hand, hold.
    pub fn compare(
        &self,
        program: &Program,
        seeds: &[u64],
        count: u64,
        points: &[(&str, usize)],
    ) -> Result<(), String> {
        let all = self.compare_seeds(program, seeds, count).into_iter();
        let all: Vec<(Reached, usize)> = all.collect::<Result<_, String>>()?;
        let (reached, damaged_files): (Vec<Reached>, Vec<usize>) = all.into_iter().unzip();
        let mut rows = (self.rows)(&reached);
        let others = [("damaged files", damaged_files.iter().sum())];
        let others = others.iter().chain(points);
        rows.extend(others.map(|&(name, count)| (name.to_string(), count as u64)));
        report(&rows)
    }

    /// Compares on every seed, each on a thread of its own; what came of them in the order of the seeds.
    fn compare_seeds(
        &self,
        program: &Program,
        seeds: &[u64],
        count: u64,
    ) -> Vec<Result<(Reached, usize), String>> {
        std::thread::scope(|scope| {
            let compare = |&seed| scope.spawn(move || self.compare_seed(program, seed, count));
            let threads: Vec<_> = seeds.iter().map(compare).collect();
            let ended = threads.into_iter().map(|thread| thread.join());
            ended
                .map(|ended| ended.unwrap_or_else(|panic| resume_unwind(panic)))
                .collect()
        })
    }

    /// Hands back what was reached and how many damaged files there are.
    fn compare_seed(
        &self,
        program: &Program,
        seed: u64,
        count: u64,
    ) -> Result<(Reached, usize), String> {
        let mut reached = Reached::default();
        let cases = (self.cases)(seed, count);
        (self.compare_cases)(program, &cases, &mut reached)
            .map_err(|e| format!("seed {seed}: {e}"))?;
        let damaged = (self.damaged)(&cases, &mut Random::new(seed ^ 0x5EED));
        for (name, file) in &damaged {
            (self.compare_file)(program, file)
                .map_err(|e| format!("seed {seed}, damaged file ({name}): {e}"))?;
        }
        (self.compare_more)(program, seed, &cases, &mut reached)
            .map_err(|e| format!("seed {seed}, {e}"))?;
        Ok((reached, damaged.len()))
    }
}

/// A case, and the name of the kind that it was made as.
pub struct Made<C> {
    pub name: &'static str,
    pub case: C,
}

/// A file of cases.
pub fn file_of<'a, C: 'a>(
    cases: impl IntoIterator<Item = &'a Made<C>>,
    write: impl Fn(&C, &mut Vec<u8>),
) -> Vec<u8> {
    let mut file = Vec::new();
    cases
        .into_iter()
        .for_each(|made| write(&made.case, &mut file));
    file
}

/// How many cases were made as each kind.
pub fn kind_rows(kinds: impl Iterator<Item = &'static str>, made: &[&'static str]) -> Rows {
    let row = |kind| {
        let count = made.iter().filter(|&&name| name == kind).count();
        (format!("cases with {kind}"), count as u64)
    };
    kinds.map(row).collect()
}

/// What cases of several kinds reached: what is counted over their results, and the kind of each.
#[derive(Default)]
pub struct ReachedByKind<Counts> {
    pub counts: Counts,
    pub made: Vec<&'static str>,
}

impl<Counts> ReachedByKind<Counts> {
    /// Compares on cases, so many at once; `compare_file` takes the number of a file's first case.
    pub fn compare_batches<C>(
        &mut self,
        cases: &[Made<C>],
        batch: usize,
        write: impl Fn(&C, &mut Vec<u8>),
        compare_file: impl Fn(&[u8], usize, &mut Counts) -> Result<(), String>,
    ) -> Result<(), String> {
        self.made.extend(cases.iter().map(|made| made.name));
        for (i, some) in cases.chunks(batch).enumerate() {
            compare_file(&file_of(some, &write), i * batch, &mut self.counts)?;
        }
        Ok(())
    }
}

#[cfg(test)]
mod tests {
    use super::*;

    /// The cases of a seed are the seed; seeds above 4 differ.
    const COMPARISON: Comparison<u64, u64> = Comparison {
        cases: |seed, _| seed,
        compare_cases: |_, &seed, reached| {
            *reached = 10 * seed;
            (seed <= 4).then_some(()).ok_or("differs".to_string())
        },
        damaged: |_, _| Vec::new(),
        compare_file: |_, _| Ok(()),
        compare_more: |_, _, _, _| Ok(()),
        rows: |all| sums(all, |&reached| vec![("tens".to_string(), reached)]),
    };

    fn program() -> Program {
        Program::parse("none")
    }

    #[test]
    fn rows_are_of_all_seeds() {
        let all = COMPARISON.compare_seeds(&program(), &[3, 1, 2], 0);
        let all: Vec<u64> = all.into_iter().map(|one| one.unwrap().0).collect();
        assert_eq!(all, [30, 10, 20]);
        assert_eq!((COMPARISON.rows)(&all), [("tens".to_string(), 60)]);
    }

    #[test]
    fn the_first_seed_that_differs_is_named() {
        for (seeds, told) in [
            ([1, 7, 6], "seed 7: differs"),
            ([5, 4, 6], "seed 5: differs"),
        ] {
            let compared = COMPARISON.compare(&program(), &seeds, 0, &[]);
            assert_eq!(compared, Err(told.to_string()));
        }
    }
}
