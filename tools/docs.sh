#!/usr/bin/env bash
# Tests the documents against the sources: each clause, definition and file that a crate's README.md names stands, each link
# leads somewhere, docs/HEADLINE.md lists all definitions that the claim rests on, each definition that another crate cites has a
# name of its own, and docs/ARCHITECTURE.md shows each crate above those that it stands on. Writes docs/index/ and that list; with
# --check it writes nothing, and they have to be as it would write them. Exit status 0 where all is as it should be.
set -u
cd "$(dirname "$0")/.." || exit 1
exec python3 tools/docs.py "$@"
