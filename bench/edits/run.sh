#!/bin/sh
# Measures edits of a core and of a plan beside plain Rust. `../shared.sh` explains KIT and KEPT.
set -eu
here=$(cd "$(dirname "$0")" && pwd)
. "$here/../shared.sh"
measure
