#!/usr/bin/env bash
# Reads the Rust texts of tests/reader with itemtree, and compares what it writes: reader.sh ITEMTREE
exec python3 "$(dirname "$(realpath "${BASH_SOURCE[0]}")")/reader.py" "$@"
