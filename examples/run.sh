#!/bin/sh
# Builds the entry for C and its two hosts, runs them, and compares what they print with
# expected.txt. Ends with status 1 where they differ.
set -eu
here=$(cd "$(dirname "$0")" && pwd)
root=$(dirname "$here")
out=$root/target/examples
mkdir -p "$out"
if ! (cd "$root/crates/messages_c" && rt lib) > "$out/staticlib.log" 2>&1; then
    tail -n 20 "$out/staticlib.log" >&2
    echo "examples: the library was not built, see $out/staticlib.log" >&2
    exit 1
fi
library=$root/target/staticlib/libmessages.a
mkdir -p "$(dirname "$library")"
cp "$root/crates/messages_c/out/libmessages_c.a" "$library"
"${CC:-cc}" -std=c99 -Wall -Wextra -I "$root/include" "$here/kind.c" "$library" -o "$out/kind-c"
"${RUSTC:-rustc}" --edition 2021 "$here/kind.rs" -C link-arg="$library" -o "$out/kind-rs"
status=0
for host in kind-c kind-rs; do
    "$out/$host" > "$out/$host.txt"
    if diff "$here/expected.txt" "$out/$host.txt"; then
        echo "$host: as expected"
    else
        echo "$host: other than expected" >&2
        status=1
    fi
done
exit $status
