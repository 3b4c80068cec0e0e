#!/bin/sh
# Tests rust/minus: its form, its lints, its tests, and programs over it in a pseudo terminal. Where something is missing
# that a part needs, a line says which part was left out.
set -eu
top=$(cd "$(dirname "$0")/.." && pwd)
cd "$top/rust/minus"
export MINUS_C_LIB="${MINUS_C_LIB:-$top/crates/minus_c/out}"
archive=$MINUS_C_LIB/libminus_c.a
registry=/usr/share/cargo/registry
crates=$top/tools/debian_crates.toml

left_out() {
    echo "test_rust: left out: $1"
}

if ! command -v cargo >/dev/null; then
    left_out 'all, since there is no cargo'
    exit 0
fi
if cargo fmt --version >/dev/null 2>&1; then
    cargo fmt --check
else
    left_out 'the form, since there is no cargo fmt'
fi
for crate in crossterm crossbeam-channel parking_lot regex thiserror; do
    if ! ls -d "$registry/$crate"-* >/dev/null 2>&1; then
        package=librust-$(echo $crate | tr _ -)-dev
        left_out "lints, documents and tests, since $registry has no $crate (the package $package)"
        exit 0
    fi
done
if command -v python3 >/dev/null; then
    python3 "$top/tools/test_declarations.py"
else
    left_out 'the declarations beside the header, since there is no python3'
fi
if cargo clippy --version >/dev/null 2>&1; then
    for features in '' static_output dynamic_output,search static_output,dynamic_output,search,clipboard; do
        cargo clippy --quiet --config "$crates" --all-targets --features "$features" -- --deny warnings
    done
else
    left_out 'lints, since there is no cargo clippy'
fi
# (with no library, which documents and checks do not need: two lines say that it is missing)
MINUS_C_LIB=/nowhere RUSTDOCFLAGS='--deny warnings' cargo doc --quiet --config "$crates" --no-deps --all-features
if [ ! -f "$archive" ]; then
    left_out "tests, since there is no $archive (rt lib in crates/minus_c makes it)"
    exit 0
fi
cargo test --config "$crates" --all-features
if ! command -v python3 >/dev/null; then
    left_out 'programs in a pseudo terminal, since there is no python3'
    exit 0
fi
cargo build --quiet --config "$crates" --all-features --examples
python3 "$top/tools/test_rust.py" "${CARGO_TARGET_DIR:-target}/debug/examples"
echo 'test_rust: all was run'
