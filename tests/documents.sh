#!/usr/bin/env bash
# Runs the examples in the documents by the built program, and compares what it prints with what stands there (tools/examples.py).
# Usage: tests/documents.sh [--write], which writes it there instead. Exit status 0 where all is as it should be.
cd "$(dirname "$0")/.." || exit 1
exec tools/examples.py "$@" docs/TUTORIAL.md docs/use/LANGUAGE.md
