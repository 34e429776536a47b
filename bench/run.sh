#!/bin/bash
# run.sh [IMAGES [SOURCE]]: prove and build the static library, assemble the
# given Rust as oracle/build.sh does, and time both on every image of the folder
# IMAGES that has a .cfg. IMAGES is by default shared/bench beside the
# repository, SOURCE (what holds crates/cfglib/src) shared/docs/src there.
# IMAGES "own" means those that images.py writes, here into target/bench-images.
set -euo pipefail

HERE=$(dirname "$(realpath "$0")")
ROOT=$(dirname "$HERE")
IMAGES=${1:-$ROOT/../shared/bench}
SOURCE=${2:-$ROOT/../shared/docs/src}

[ "$IMAGES" = own ] || [ -d "$IMAGES" ] || { echo "no images in $IMAGES: name a folder that has them, or 'own'" >&2; exit 1; }
POZHDAGHI_LIB_DIR= "$ROOT/oracle/lacks.sh" "$SOURCE"

mkdir -p "$ROOT/target"
if [ "$IMAGES" = own ]; then
    IMAGES=$ROOT/target/bench-images
    rm -rf "$IMAGES"
    python3 "$HERE/images.py" "$IMAGES"
fi
"$ROOT/tools/archive.sh" > "$ROOT/target/bench-proof.log" 2>&1 || { tail -n 20 "$ROOT/target/bench-proof.log" >&2; exit 1; }
bash "$ROOT/oracle/build.sh" "$SOURCE" > "$ROOT/target/bench-oracle.log" 2>&1 || { tail -n 20 "$ROOT/target/bench-oracle.log" >&2; exit 1; }
export POZHDAGHI_LIB_DIR=$ROOT/target/staticlib
cargo build --quiet --release --offline --manifest-path "$HERE/Cargo.toml" --target-dir "$ROOT/target/bench"

NAMES=()
for limits in "$IMAGES"/*.img.cfg; do
    NAMES+=("${limits%.cfg}")
done
"$ROOT/target/bench/release/bench" "${NAMES[@]}"
