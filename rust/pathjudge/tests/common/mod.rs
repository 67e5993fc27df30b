//! C programs over the header, each a file beside the tests.
use std::io::Write;
use std::path::{Path, PathBuf};
use std::process::{Command, Output};

fn said(output: &Output) -> String {
    String::from_utf8_lossy(&output.stdout).into_owned() + &String::from_utf8_lossy(&output.stderr)
}

/// What the program NAME.c prints about the certificates of tests/chain, where it ends well; nothing where there is no C compiler, which is said.
pub fn printed(name: &str) -> Option<String> {
    let here = Path::new(env!("CARGO_MANIFEST_DIR"));
    let repository = here.join("../..");
    let program = PathBuf::from(env!("CARGO_TARGET_TMPDIR")).join(name);
    let compiler = std::env::var("CC").unwrap_or_else(|_| "cc".into());
    let compiled = Command::new(&compiler)
        .args(["-std=c11", "-Wall", "-Wextra", "-Wpedantic", "-Werror", "-O1", "-I"])
        .arg(repository.join("include"))
        .arg("-o")
        .arg(&program)
        .arg(here.join("tests").join(name).with_extension("c"))
        .arg(repository.join("crates/judge/out/libjudge.a"))
        .output();
    let compiled = match compiled {
        Ok(compiled) => compiled,
        Err(e) => {
            // not through a macro, whose output a test that passes does not show
            writeln!(std::io::stderr(), "SKIPPED: {compiler} could not be started ({e}), so {name}.c is not run").expect("a terminal");
            return None;
        }
    };
    assert!(compiled.status.success(), "{}", said(&compiled));
    let chain = here.join("tests/chain");
    let ran = Command::new(program).args(["root.der", "issuer.der", "server.der"].map(|name| chain.join(name))).output().expect("it runs");
    assert!(ran.status.success(), "{}, {}", ran.status, said(&ran));
    Some(said(&ran))
}
