#!/bin/sh
# Measures calls of the library beside plain Rust. `../shared.sh` explains KIT and KEPT.
set -eu
here=$(cd "$(dirname "$0")" && pwd)
. "$here/../shared.sh"
measure
