//! The C header: a C program that includes it decides one request. Without a C compiler the test says so and holds nothing.
mod common;

#[test]
fn a_c_program_decides() {
    if let Some(printed) = common::printed("header") {
        assert_eq!(printed, "ok\n");
    }
}
