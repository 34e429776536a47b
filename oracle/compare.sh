#!/bin/bash
# compare.sh [SEED] [CASES] [SCENE]: the given Rust, our static library and a
# second implementation of documents 01 and 02 on the same drawn input. Ends with 1 if
# there is a difference; README.md says more.
# Needs what build.sh needs, and Rattle's tool rt to prove and write the library.
# With POZHDAGHI_LIB_DIR libpozhdaghi.a is taken from that folder and nothing is
# proved here. GIVEN is the folder that build.sh calls SOURCE, if not the default.
set -euo pipefail

HERE=$(dirname "$(realpath "$0")")
ROOT=$(dirname "$HERE")
OUT=$ROOT/target/compare
GIVEN=${GIVEN:-$ROOT/../shared/docs/src}

"$HERE/lacks.sh" "$GIVEN" "POZHDAGHI_LIB_DIR with the folder of a proved libpozhdaghi.a"
"$HERE/build.sh" "$GIVEN" "$ROOT/target/oracle"
if [ -z "${POZHDAGHI_LIB_DIR:-}" ]; then
    "$ROOT/tools/archive.sh"
    export POZHDAGHI_LIB_DIR=$ROOT/target/staticlib
fi

# Begin anew, so that nothing of an earlier run is compiled; what cargo has
# compiled stays. An accepted image is loaded as the oracle loads it.
mkdir -p "$OUT"
rm -rf "$OUT"/{src,build.rs,Cargo.toml}
cp -r "$HERE"/compare/{src,build.rs,Cargo.toml} "$OUT/"
cp "$HERE/src/load.rs" "$OUT/src/"
(cd "$OUT" && cargo build --release --offline --quiet)
"$OUT/target/release/compare" "${1:-1}" "${2:-100000}" ${3:+"$3"}
