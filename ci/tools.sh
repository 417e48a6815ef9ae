#!/bin/sh
# Checks the tools for people: their reader of project texts beside the program that `rt ci` has built, over drawn texts;
# names and constants; slaves made of ESI files, whose register blocks are worked out by hand; what lint finds in texts
# with a planted mistake; pictures of texts in any notation; a day at the prompt and on the page of a session; captures;
# transcripts of runs; what once went wrong at each tool; and, if the library is there, a session and captures over it. The last
# line is 'N passed, M failed'. It needs python3, 3.11 or later; where cc and rustc are installed, they compile the constants, Chromium
# reads the page, and tshark the captures.
set -u
cd "$(dirname "$0")/.."
program=${1:-crates/hotline/out/hotline}
for needed in python3 "$program"; do
    if ! command -v "$needed" >/dev/null; then
        echo "tools: $needed is missing"
        exit 1
    fi
done
exec python3 -B ci/tools/main.py "$program"
