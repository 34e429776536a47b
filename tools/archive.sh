#!/usr/bin/env bash
# archive.sh: proves the library, over what earlier checks of this checkout kept, and writes target/staticlib/libpozhdaghi.a: the archive of the crate
# pozhdaghi_c under the name that callers link. Without a proof there is no archive.
set -euo pipefail
cd "$(dirname "$0")/.."
archive=target/staticlib/libpozhdaghi.a
rm -f "$archive"
(cd crates/pozhdaghi_c && rt lib)
mkdir -p target/staticlib
cp crates/pozhdaghi_c/out/libpozhdaghi_c.a "$archive"
