#!/bin/bash
# build.sh [SOURCE] [OUT]: assemble the given Rust files with the stand-ins of
# this folder as a package in OUT, compile it offline, and compare the compiled
# copies with the given files.
# SOURCE holds crates/cfglib/src; by default shared/docs/src beside the
# repository. OUT is by default target/oracle in the repository.
# Needs cargo with edition 2024 and Debian's package librust-smallvec-dev.
set -euo pipefail

HERE=$(dirname "$(realpath "$0")")
ROOT=$(dirname "$HERE")
SOURCE=${1:-$ROOT/../shared/docs/src}
OUT=${2:-$ROOT/target/oracle}

# Of graph/, compiled unchanged.
GIVEN=(stack/path stack/search stack/partial stack/stitching stack/storage
    search/path_budget search/path_frontier store store/id edge_view)

# The enum SearchOrder with its comment, all that is used of search.rs.
cut_search_order() {
    sed -n '/^\/\/\/ The frontier discipline of a \[`search`\]\.$/,/^}$/p' "$GRAPH/search.rs"
}

GRAPH=$SOURCE/crates/cfglib/src/graph
[ -d "$GRAPH" ] || { echo "no given files in $SOURCE" >&2; exit 1; }
SMALLVEC=$(find /usr/share/cargo/registry -maxdepth 1 -name 'smallvec-1.*' 2>/dev/null | sort | tail -n 1) || true
[ -n "$SMALLVEC" ] || { echo "smallvec is missing: apt-get update; apt-get install -y librust-smallvec-dev" >&2; exit 1; }

# Begin anew, so that nothing of an earlier assembly is compiled; what cargo
# has compiled stays.
mkdir -p "$OUT"
rm -rf "$OUT"/{src,programs,smallvec,fake-serde,fake-serde-derive}
mkdir -p "$OUT"/{src,programs,smallvec/src}

cp "$SMALLVEC"/src/*.rs "$OUT/smallvec/src/"
cp "$HERE/standins/smallvec.toml" "$OUT/smallvec/Cargo.toml"
cp -r "$HERE"/standins/{Cargo.toml,fake-serde,fake-serde-derive} "$OUT/"
cp -r "$HERE"/standins/{lib.rs,identity.rs,graph} "$OUT/src/"
cp "$HERE"/src/*.rs "$OUT/programs/"
mkdir -p "$OUT/src/graph/search"
cut_search_order > "$OUT/src/graph/search/order.rs"
for file in "${GIVEN[@]}"; do
    cp "$GRAPH/$file.rs" "$OUT/src/graph/$file.rs"
done

(cd "$OUT" && cargo build --release --offline)

for file in "${GIVEN[@]}"; do
    cmp "$GRAPH/$file.rs" "$OUT/src/graph/$file.rs"
    echo "unchanged graph/$file.rs"
done
grep -q '^pub enum SearchOrder {$' "$OUT/src/graph/search/order.rs"
cut_search_order | cmp - "$OUT/src/graph/search/order.rs"
echo "unchanged SearchOrder of graph/search.rs"
echo "built with $(basename "$SMALLVEC"): $OUT/target/release/{oracle,bench}"
