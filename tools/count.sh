#!/bin/sh
# Lines that are neither blank nor comment, a Markdown row for each crate. Usage: tools/count.sh [NAME..]
cd "$(dirname "$0")/.." || exit 2
lines() { xargs -r cat | grep -cvE '^[[:space:]]*($|//|--|#!)'; }
[ $# -gt 0 ] || set -- $(LC_ALL=C ls crates)
echo '| crate | code | standard | model | laws and theorems | function proofs |'
echo '|---|---:|---:|---:|---:|---:|'
for name; do
    at=crates/$name
    model='-name Model.antt -o -name Lib.antt -o -name Loop.antt -o -name Places.antt'
    echo "| $name" \
        "| $(find "$at/src" -name '*.rt' | lines)" \
        "| $(find "$at/specs" -name '*.antt' ! \( $model \) 2>/dev/null | lines)" \
        "| $(find "$at/specs" \( $model \) 2>/dev/null | lines)" \
        "| $(find "$at/proofs" -maxdepth 1 -name '*.antt' 2>/dev/null | lines)" \
        "| $(find "$at/proofs" -mindepth 2 -name '*.antt' 2>/dev/null | lines) |"
done
