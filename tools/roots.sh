#!/bin/sh
# Reads every certificate that Debian's package ca-certificates installs, as an end entity and as an anchor, and compares with the oracle:
# accepted or which refusal, and the places. Usage: tools/roots.sh ORACLE, with crates/cert_vectors/out/cert_vectors built (`rt run` in crates/cert_vectors)
cd "$(dirname "$0")/.." || exit 2
lines=$(mktemp) ours=$(mktemp) theirs=$(mktemp)
for pem in /usr/share/ca-certificates/*/*.crt; do
    printf 'r '
    sed '/^-----/d' "$pem" | base64 -d | od -An -v -tx1 | tr -d ' \n'
    echo
done > "$lines"
crates/cert_vectors/out/cert_vectors < "$lines" > "$ours"
tools/record_cert.py answers "$1" < "$lines" > "$theirs"
printf '%s certificates, %s read as anchors, %s differences\n' \
    "$(wc -l < "$lines")" "$(grep -c '| ok ' "$ours")" "$(diff "$ours" "$theirs" | grep -c '^<')"
grep -v '| ok ' "$ours"
diff "$ours" "$theirs"
