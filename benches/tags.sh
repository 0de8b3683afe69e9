#!/bin/sh
# Nanoseconds for each tag of 41, 73 and 128 bytes: the product's two taggers, out of its static library, beside C versions
# of the same functions in siphash.c and cmac.c (gcc -O3) and beside OpenSSL's, where its headers are found. It first sees
# that all give the same tags, and then measures them in turns, in one run.
#
#   benches/tags.sh            prove and build the library, and measure
#   benches/tags.sh LIBRARY    measure this libtaglib.a
set -eu
here=$(cd "$(dirname "$0")" && pwd)
library=${1:-}
if [ -z "$library" ]; then
    (cd "$here/../crates/taglib" && rt lib)
    library=$here/../crates/taglib/out/libtaglib.a
fi
made=$(mktemp -d)
trap 'rm -rf "$made"' EXIT
for part in siphash cmac; do
    gcc -O3 -std=c11 -Wall -Wextra -c "$here/$part.c" -o "$made/$part.o"
done
with=
libs=
if printf '#include <openssl/core_names.h>\n#include <openssl/evp.h>\nint main(void) { return EVP_MAC_fetch(0, "CMAC", 0) == 0; }\n' |
    gcc -x c - -o "$made/probe" -lcrypto 2>/dev/null && "$made/probe"; then
    with=-DWITH_OPENSSL
    libs=-lcrypto
else
    echo "OpenSSL's headers are not here (libssl-dev): measured without it"
fi
gcc -O3 -std=gnu11 -Wall -Wextra $with "$here/tags.c" "$made/siphash.o" "$made/cmac.o" "$library" $libs -o "$made/tags"
"$made/tags"
