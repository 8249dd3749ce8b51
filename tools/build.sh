#!/usr/bin/env bash
# Builds what others use, from proved crates: the three programs into target/bin, and the library for C, target/staticlib/libtruppidane.a.
set -e
cd "$(dirname "$0")/.."
mkdir -p target/bin target/staticlib
(cd crates/truppidane_c && rt lib)
cp crates/truppidane_c/out/libtruppidane_c.a target/staticlib/libtruppidane.a
for name in listing claim_write claim_check; do
    (cd "crates/$name" && rt run </dev/null)
    cp "crates/$name/out/$name" target/bin/
done
