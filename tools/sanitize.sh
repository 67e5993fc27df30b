#!/bin/sh
# The Rust and C tests under sanitizers and valgrind, one after the other. Usage: tools/sanitize.sh
# The library itself is compiled without a sanitizer: AddressSanitizer watches the callers' side, and valgrind watches every access on both sides.
cd "$(dirname "$0")/.." || exit 2
target=x86_64-unknown-linux-gnu
out=rust/target/sanitize
chain=rust/pathjudge/tests/chain
watch='valgrind --quiet --error-exitcode=9 --leak-check=full --show-leak-kinds=definite,indirect --errors-for-leak-kinds=definite,indirect'
failed=0

run() {
    echo "sanitize: $1"
    shift
    "$@" || { echo "sanitize: FAILED: $*"; failed=1; }
}
driver() { # NAME FLAGS..: the C program, built as NAME
    name=$1
    shift
    cc -std=c11 -g "$@" -Iinclude -o "$out/$name" rust/pathjudge/tests/header.c crates/judge/out/libjudge.a
}
# A given target keeps the flags away from the build script, and the runner away from cargo.
rust_tests() { # NAME WORDS..
    name=$1
    shift
    cargo test --offline --target "$target" --target-dir "$out/$name" "$@"
}
address_tests() { RUSTC_BOOTSTRAP=1 RUSTFLAGS=-Zsanitizer=address RUSTDOCFLAGS=-Zsanitizer=address rust_tests address --workspace; }
valgrind_tests() { CARGO_TARGET_X86_64_UNKNOWN_LINUX_GNU_RUNNER=$watch rust_tests valgrind --package pathjudge; }

mkdir -p "$out"
run 'Rust tests, AddressSanitizer' address_tests
run 'Rust tests, valgrind' valgrind_tests
run 'C program, built with AddressSanitizer and UndefinedBehaviorSanitizer' driver driver-sanitized -fsanitize=address,undefined -fno-sanitize-recover=all
run 'C program, AddressSanitizer and UndefinedBehaviorSanitizer' "$out/driver-sanitized" "$chain/root.der" "$chain/issuer.der" "$chain/server.der"
run 'C program, built' driver driver
run 'C program, valgrind' $watch "$out/driver" "$chain/root.der" "$chain/issuer.der" "$chain/server.der"
[ "$failed" -eq 0 ] && echo 'sanitize: all passed' || echo 'sanitize: something FAILED'
exit "$failed"
