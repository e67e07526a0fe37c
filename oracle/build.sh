#!/usr/bin/env bash
# Builds the driver over the crate's own files: oracle/build.sh PATH (the crate's folder src, with bitstream_utils.rs and codec/av1/)
# target/oracle/driver has debug assertions and overflow checks, as the crate's tests have; target/oracle/driver-release has neither.
set -e
export CROS_CODECS=$(realpath "$1")
here=$(dirname "$(realpath "$0")")
out=$here/../target/oracle
mkdir -p "$out"
compile() { rustc --edition 2021 -A warnings -C opt-level=1 --out-dir "$out" "$@"; }
compile --crate-type rlib --crate-name log "$here/driver/log.rs"
compile --crate-name driver --extern log="$out/liblog.rlib" -C debug-assertions=on -C overflow-checks=on "$here/driver/main.rs"
compile --crate-name driver_release --extern log="$out/liblog.rlib" -C debug-assertions=off -C overflow-checks=off "$here/driver/main.rs"
mv "$out/driver_release" "$out/driver-release"
