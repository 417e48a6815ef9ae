#!/bin/sh
# Judges each wrong body of the joined must-fail edits, by hand: the gate sees an edit refused as a whole.
#   ci/bodies.sh CRATE..        has the prover judge the function of each body in these crates, lists the bodies that their
#                                  contracts don't refuse, and keeps in ci/bodies/refused.txt the checksums of those that they
#                                  refuse, with a checksum of the crate
#   ci/bodies.sh --new CRATE..  judges the bodies alone that refused.txt doesn't have
#   ci/bodies.sh --list         fails where a body of a joined edit was never judged, or an edit can't be applied; names the
#                                  crates that changed since their bodies were judged. The gate runs it
# An edit of one body is judged by the gate itself.
# A body is a pair of lines 'old:' and 'new:'; where one needs several pairs, they follow one another after a line 'body: NAME'.
# The crates are tried in a clone of what is committed, over the work that checks here have kept: some 40 processor seconds an
# edit and 4 a body. It needs python3, 3.11 or later, and the Rattle kit.
set -eu
cd "$(dirname "$0")/.."
exec python3 -B ci/bodies/check.py "$@"
