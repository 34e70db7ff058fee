//! What the tests and the long random run share: cases, the library under test, the reference, the generator.
pub mod case;
pub mod generate;
pub mod library;
pub mod reference;

use case::{Answer, Case};

/// What the library answers, held against the reference; or what is wrong, with the case in its stored form.
pub fn agreed(case: &Case) -> Result<Answer, String> {
    let expected = reference::answer(case);
    match library::answer(case) {
        Ok(given) if given == expected => Ok(given),
        Ok(given) => Err(format!("the library gave {given}, not what is below\n{}", case.text(Some(&expected)))),
        Err(fault) => Err(format!("{fault}\n{}", case.text(Some(&expected)))),
    }
}
