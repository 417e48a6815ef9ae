#!/bin/sh
# Checks the pages: links, names of pages and of code, quoted code, parts of stored runs and frames that a table takes apart
# beside their sources, the length of pages and sentences, and the commands, which it runs with the program that `rt ci` has
# built. Commands that it doesn't run say why on their page, or name the script that runs them. Mistakes of each kind are
# planted, and must be found. `ci/pages.sh --text` runs no command, and needs no program. The last line is 'N passed, M
# failed'. It needs python3, 3.11 or later.
set -u
cd "$(dirname "$0")/.."
program=crates/hotline/out/hotline
[ "${1:-}" = --text ] && exec python3 -B ci/pages/main.py --text
for needed in python3 "$program"; do
    if ! command -v "$needed" >/dev/null; then
        echo "pages: $needed is missing"
        exit 1
    fi
done
exec python3 -B ci/pages/main.py
