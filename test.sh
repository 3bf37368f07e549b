#!/bin/sh
# Everything that can fail: the layout of the files, the proof of every function, the edits that the
# prover must refuse, the programs with what they must print, and the compiled library and its add-on
# against methods that share no code with them, from Rust and from C. `rt ci` proves from nothing all that
# it has not passed on this machine, told by what it reads. The last line is that of `rt ci`.
set -eu
cd "$(dirname "$0")"
scratch=$(mktemp -d)
trap 'rm -rf "$scratch"' EXIT
{ rt ci && : >"$scratch/passed"; } | tee "$scratch/log"
[ -e "$scratch/passed" ]
# An edit that cannot be applied shows nothing, and `rt ci` passes all the same.
if grep -q '^rt: ok.*, [1-9][0-9]* bad' "$scratch/log"; then
    echo "test: a must-fail edit is no longer one" >&2
    exit 1
fi
mkdir "$scratch/lib"
for library in diilvak diilvak_meter; do
    (cd "crates/$library" && rt lib)
    cp "crates/$library/out/lib$library.a" "$scratch/lib"
done
(cd crates/survey && rt run </dev/null >/dev/null)
(cd rust && DIILVAK_LIB_DIR="$scratch/lib" CARGO_TARGET_DIR="$scratch/rust" cargo test --release --offline -- --nocapture)
tail -n 1 "$scratch/log"
