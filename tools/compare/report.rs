//! Counts what was compared, and shows the first differences of each call.

use std::fmt::Debug;

/// How many differences of one call are shown.
const SHOWN: u64 = 3;

/// What was compared so far.
#[derive(Default)]
pub struct Report {
    compared: u64,
    differences: u64,
}

/// What was compared of one call.
pub struct Call {
    name: &'static str,
    compared: u64,
    differences: u64,
}

impl Report {
    /// Compares one call, by the given inputs, and prints how many answers were compared.
    pub fn call(&mut self, name: &'static str, compare: impl FnOnce(&mut Call)) {
        let mut call = Call { name, compared: 0, differences: 0 };
        compare(&mut call);
        println!("{name}: {} compared, {} differ", call.compared, call.differences);
        self.compared += call.compared;
        self.differences += call.differences;
    }

    /// Prints the sums, and answers whether all agreed.
    pub fn close(self) -> bool {
        println!("compare: {} comparisons, {} differences", self.compared, self.differences);
        self.differences == 0 && self.compared > 0
    }
}

impl Call {
    /// Compares our answer at an input with the oracle's.
    #[inline]
    pub fn same<I: Debug, T: PartialEq + Debug>(&mut self, input: I, ours: T, oracle: T) {
        self.compared += 1;
        if ours != oracle {
            self.differ(&input, &ours, &oracle);
        }
    }

    #[cold]
    fn differ(&mut self, input: &dyn Debug, ours: &dyn Debug, oracle: &dyn Debug) {
        self.differences += 1;
        if self.differences <= SHOWN {
            println!("{} differs at {input:#x?}: ours {ours:x?}, the oracle's {oracle:x?}", self.name);
        }
    }
}

/// Whether the given code panics.
pub fn panics<T>(run: impl FnOnce() -> T) -> bool {
    std::panic::catch_unwind(std::panic::AssertUnwindSafe(run)).is_err()
}
