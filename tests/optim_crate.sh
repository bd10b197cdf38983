#!/bin/sh
# optim_crate.sh FOLDER: builds the six Rust files of FOLDER, unchanged, as target/libtsecon_optim.rlib. Run it at the
# repository's root. The files have no crate around them, so that one is made in target/, where nothing is committed.
set -eu
folder=$1
made=target/tsecon_optim
mkdir -p "$made"
: > "$made/lib.rs"
for name in error linesearch neldermead objective quasinewton result; do
    cp "$folder/$name.rs" "$made/$name.rs"
    printf 'pub mod %s;\npub use %s::*;\n' "$name" "$name" >> "$made/lib.rs"
done
rustc -O --edition 2021 --crate-type rlib --crate-name tsecon_optim "$made/lib.rs" -o target/libtsecon_optim.rlib
