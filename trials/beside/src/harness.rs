//! Tests that run one after the other in the main thread of their program.
//!
//! In an emulator of x86-64 all of a program is some three times slower once it
//! has a second thread, and the tests that Rust brings along always have one.

use std::panic::catch_unwind;
use std::process::ExitCode;
use std::time::Instant;

/// The `main` of a file of tests, which it names.
#[macro_export]
macro_rules! tests {
    ($($test:ident),* $(,)?) => {
        fn main() -> std::process::ExitCode {
            $crate::harness::all(&[$((stringify!($test), $test)),*])
        }
    };
}

/// Runs the tests, or those whose names have a part that is given as argument.
/// The last line is `N passed, M failed`.
pub fn all(tests: &[(&str, fn())]) -> ExitCode {
    // cargo hands on options that are for the other kind of tests
    let parts: Vec<String> = std::env::args().skip(1).collect();
    let parts: Vec<&String> = parts.iter().filter(|part| !part.starts_with('-')).collect();
    let wanted = |name: &str| parts.is_empty() || parts.iter().any(|part| name.contains(*part));
    let (mut passed, mut failed) = (0, 0);
    for (name, test) in tests.iter().filter(|(name, _)| wanted(name)) {
        let begun = Instant::now();
        let ended = match catch_unwind(test) {
            Ok(()) => {
                passed += 1;
                "ok"
            }
            Err(_) => {
                failed += 1;
                "FAILED"
            }
        };
        println!("{name}: {ended}, {:.1} s", begun.elapsed().as_secs_f64());
    }
    println!("{passed} passed, {failed} failed");
    ExitCode::from(u8::from(failed > 0))
}
