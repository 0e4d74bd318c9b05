//! Mistakes by name, for a writer or a generator that may make one of them.

use std::fmt::Debug;

macro_rules! mistakes {
    ($($(#[$why:meta])* $name:ident,)*) => {
        #[derive(Clone, Copy, Debug, PartialEq, Eq)]
        pub enum Mistake {
            $($(#[$why])* $name,)*
        }

        impl Mistake {
            pub const EACH: &'static [Mistake] = &[$(Mistake::$name,)*];
        }
    };
}

/// Without a mistake, or with one.
#[derive(Clone, Copy, Debug)]
pub struct Rule<M>(pub Option<M>);

impl<M: Copy + PartialEq> Rule<M> {
    pub fn has(self, mistake: M) -> bool {
        self.0 == Some(mistake)
    }

    /// Returns one number or, with the mistake, the other.
    pub fn number<T>(self, right: T, mistake: M, wrong: T) -> T {
        if self.has(mistake) {
            wrong
        } else {
            right
        }
    }
}

type File = Result<Vec<u8>, u8>;

/// Checks that each mistake makes a different file for some call.
pub fn assert_each_found<C, M: Copy + Debug>(
    each: &[M],
    calls: &[C],
    right: impl Fn(&C) -> File,
    made: impl Fn(Rule<M>, &C) -> File,
) {
    let files: Vec<_> = calls.iter().map(right).collect();
    for &mistake in each {
        let differs = |(call, file): &(&C, &File)| made(Rule(Some(mistake)), call) != **file;
        let found = calls.iter().zip(&files).filter(differs).count();
        println!("{mistake:?}: {found} of {} calls", calls.len());
        assert!(found > 0, "{mistake:?}");
    }
}

/// Checks that there are files and both refusals, so that no single answer
/// would do.
pub fn assert_every_answer(files: &[File]) {
    let count = |fits: fn(&File) -> bool| files.iter().filter(|file| fits(file)).count();
    let answers = [count(|file| file.is_ok()), count(|file| *file == Err(7)), count(|file| *file == Err(10))];
    println!("{answers:?}");
    assert!(answers.iter().all(|&count| count > 50) && answers.iter().sum::<usize>() == files.len());
}
