#!/bin/bash
# lacks.sh SOURCE [WAY]: all that compare.sh and bench/run.sh lack here, said before anything is built; status 1 if there is something. SOURCE holds the given Rust
# files. With POZHDAGHI_LIB_DIR the archive must be in that folder; else rt must be there to prove it; WAY
# is what a caller may do without it.
set -uo pipefail

lacks=0
lack() {
    echo "lacking: $1" >&2
    lacks=1
}

[ -d "$1/crates/cfglib/src/graph" ] || lack "the given Rust files, crates/cfglib/src in $1; another folder can be named"
command -v cargo > /dev/null || lack "cargo, with edition 2024"
command -v cc > /dev/null || lack "cc, which cargo links with"
command -v python3 > /dev/null || lack "python3"
compgen -G '/usr/share/cargo/registry/smallvec-1.*' > /dev/null || lack "smallvec: apt-get update; apt-get install -y librust-smallvec-dev"
if [ -n "${POZHDAGHI_LIB_DIR:-}" ]; then
    [ -f "$POZHDAGHI_LIB_DIR/libpozhdaghi.a" ] || lack "libpozhdaghi.a in $POZHDAGHI_LIB_DIR, which POZHDAGHI_LIB_DIR names; without it, it is proved here"
else
    command -v rt > /dev/null || lack "rt, Rattle's tool, to prove the library${2:+; or $2}"
fi
exit "$lacks"
