//! Compares the service's two C exports with the second implementation.
//!
//!     second-service SEED COUNT [FIRST]     cases FIRST (0) and on
//!
//! A case is a file for the whole-file test, and a correction. The comparison ends with 1 at the first
//! difference, and with 3 if an answer never occurred (a run needs some thousands of cases for that).

mod calls;
mod comparing;
mod correcting;
mod corrections;
mod counts;
mod inputs;
mod lent;
mod made;
mod running;
mod service_exports;
mod sff;
mod shared_calls;
mod views;
mod writing;

use comparing::{unchanged, Choices, Outcome};
use counts::Counts;
use shared_calls::{Corrected, Tests};

fn main() {
    running::run::<Comparison>("second-service", || Ok(()));
}

struct Comparison {
    tests: Tests,
    corrected: Corrected,
}

impl running::Comparison for Comparison {
    fn new() -> Comparison {
        Comparison {
            tests: Tests::new(),
            corrected: Corrected::new(),
        }
    }

    fn case(&mut self, seed: u64, number: u64) -> Outcome {
        let mut choices = Choices::new(seed, number);
        let file = calls::file(seed, number);
        let lent = choices.lend(&file, 1);
        let tested = sff::test_file(&file);
        self.tests
            .case(service_exports::test, &file, &lent, &tested)?;
        unchanged("test", lent.unchanged(), &[("file", &file)])?;
        let call = corrections::correct_call(seed, number);
        self.corrected
            .case(service_exports::correct, &call, &mut choices)
    }

    fn answers(&mut self) -> Vec<(&'static str, &mut Counts)> {
        vec![
            ("service test", &mut self.tests.answers),
            ("service correct", &mut self.corrected.answers),
        ]
    }

    fn others(&mut self) -> Vec<(&'static str, &mut Counts)> {
        vec![
            ("service test, sound files", &mut self.tests.shapes),
            (
                "service correct, carried out",
                &mut self.corrected.carried_out,
            ),
        ]
    }
}
