#!/usr/bin/env bash
# Ships the program that the gate built: dist/ gets it, and of which sources and by which kit it was made. It is the last step
# of a change of sources, behind a gate that passed.
set -eu
cd "$(dirname "${BASH_SOURCE[0]}")/.."
program=crates/vadlgen/out/vadlgen
[ -x "$program" ] || { echo "ship.sh: there is no $program; run rt ci first" >&2; exit 1; }
mkdir -p dist
cp "$program" dist/vadlgen-x86_64-linux
chmod 755 dist/vadlgen-x86_64-linux
{
    echo "sources $(tools/sources.sh)"
    echo "kit $(rt version)"
} >dist/SOURCES
cat dist/SOURCES
