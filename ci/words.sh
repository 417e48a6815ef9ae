#!/bin/sh
# Checks the words of the crates. At most 20 words of specs have two definitions with different types, and no clause has more than
# 160 characters. No docstring begins with "The same" or "So", and at most 6 of 1,000 words of comments are `where`. Each test
# that sweep.sh names is a function of that module. Mistakes of each kind are planted, and must be found. The last line is
# 'N passed, M failed'. It needs python3, 3.11 or later.
set -u
cd "$(dirname "$0")/.."
command -v python3 >/dev/null || { echo "words: python3 is missing"; exit 1; }
exec python3 -B ci/words/check.py
