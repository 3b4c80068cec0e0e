#!/bin/sh
# Builds the Rust crate `minus` 5.8.0 with the driver beside this file, as FOLDER/target/release/original.
#
#   tools/original/build.sh SOURCE FOLDER      SOURCE: the crate's unpacked source (`cargo vendor` leaves it in vendor/minus);
#                                              FOLDER: not there yet
#
# Nothing of the crate is changed: its copy gets the driver as one more module, and a program that calls it.
set -eu
source=$1
folder=$2
here=$(dirname "$0")
if [ -e "$folder" ]; then
    echo "build.sh: $folder is there" >&2
    exit 2
fi
cp -R "$source" "$folder"
mkdir -p "$folder/src/bin"
cp "$here/driver.rs" "$folder/src/driver.rs"
printf '\n#[path = "driver.rs"]\npub mod driver;\n' >>"$folder/src/search.rs"
echo 'fn main() { minus::search::driver::main() }' >"$folder/src/bin/original.rs"
if ! grep -q '^name = "original"' "$folder/Cargo.toml"; then
    printf '\n[[bin]]\nname = "original"\npath = "src/bin/original.rs"\n' >>"$folder/Cargo.toml"
fi
cd "$folder"
cargo build --release --bin original --features dynamic_output,static_output,search,clipboard
