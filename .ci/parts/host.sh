#!/usr/bin/env bash
# What is held against the proved library from outside, in Rust and C: host/test says what. rt ci, which comes before, has built the program.
set -u
cd -- "$(dirname -- "${BASH_SOURCE[0]}")/../.." || exit 1
exec host/test
