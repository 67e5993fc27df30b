//! The bounds of docs/BOUNDS.md on the compiled library: a C program counts the loads of lent bytes. Without a C compiler it says so and holds nothing.
#![cfg(all(target_os = "linux", target_arch = "x86_64"))]
mod common;

#[test]
fn loads_are_as_few_as_stated() {
    if let Some(printed) = common::printed("looks") {
        println!("{printed}");
        assert!(printed.ends_with("\nok\n"), "{printed}");
    }
}
