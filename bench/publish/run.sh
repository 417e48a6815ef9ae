#!/bin/sh
# Proves `hc_publish` and a program that publishes and views by it, in a scratch folder: a program, since a static library may
# not wait. Measures it beside plain Rust. `../shared.sh` explains KIT and KEPT.
set -eu
here=$(cd "$(dirname "$0")" && pwd)
. "$here/../shared.sh"
crate 'publish_bench: hc_records hc_project hc_places hc_plan hc_events hc_publish anyhow' "$here/library"
cp "$here/../library/src/digest.rattle" "$own/src/digest.rt"
# the line with its publisher, as the tests have it
tests=$top/crates/worked_views
cp "$tests/src/lines.rt" "$tests/src/projects.rt" "$own/src/"
cp -r "$tests/proofs/lines" "$tests/proofs/Answered.antt" "$tests/proofs/Leading.antt" "$own/proofs/"
cp "$tests/specs/Lines.antt" "$own/specs/"
find "$own" -type f -exec sed -i 's/Rattle\.worked_views\./Rattle.publish_bench./g' {} +
build rt run
plain "$here/main.rs" -o "$scratch/bench"
"$scratch/bench" "$own/out/publish_bench" "$scratch"
echo "measured at $(git -C "$top" rev-parse --short HEAD)"
