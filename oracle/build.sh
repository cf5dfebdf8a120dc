#!/bin/sh
# Proves and archives the export crates, proves the programs, then builds the
# oracle. A crate that is not there is named and passed over.
# The Rust source is read from HFCAST_SRC, or from shared/docs/src beside the
# repository.
set -e
cd "$(dirname "$0")/.."
source=${HFCAST_SRC:-../shared/docs/src}
if [ ! -f "$source/src/voacap/muf.rs" ]; then
    echo "no Rust source in $source: set HFCAST_SRC to a checkout of HFcast Engine" >&2
    exit 1
fi
# a published copy says its commit in INDEX.md, a checkout by git
commit=$(sed -n 's/^Repository [^ ]* \([0-9a-f]*\) .*/\1/p' "$source/INDEX.md" 2>/dev/null)
[ -n "$commit" ] || commit=$(git -C "$source" rev-parse --short=10 HEAD 2>/dev/null) || commit=unknown
echo "the Rust: HFcast Engine in $source, commit $commit; this port was made from bf34e8f9f3"
# Proves and builds a crate that is there, and ends with the prover's words where that fails, since an archive that an
# earlier build left would be compared otherwise.
made() {
    if [ -d "crates/$1" ] || [ -d "crates/${1}_c" ]; then
        tools/build "$1"
    else
        echo "crates/$1 is not there"
    fi
}
for name in scalar_c port_circuit port_wide port_layers port_heights port_muf port_nominal port_ionogram port_figures port_tariff port_totals port_traces port_mark port_text; do
    made "$name"
done
for name in chain sheet show plot widen narrow mark compose; do
    made "$name"
done
cd oracle
exec cargo build --release
