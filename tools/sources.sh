#!/bin/sh
# Prints one sum of all that the program is made from, by which it is known whether a program that was built is of these sources. usage: sources.sh
cd "$(dirname "$0")/.." || exit 1
find crates crates.txt HANDLES -type f -not -path 'crates/*/out/*' | LC_ALL=C sort | xargs -d '\n' sha256sum | sha256sum
