#!/usr/bin/env bash
# Builds the SystemC module's example and test, with warnings as errors, and runs them: the example prints what is stored for
# it, and the test compares the module with the player on drawn accesses. Then it prints what an access costs.
# It needs SystemC (Debian's libsystemc-dev), c++ and the archive (tools/build pmc330_c); it is no part of the gate.
set -euo pipefail
cd "$(dirname "$0")/../.."

# Says why on one line, and ends.
fail() { echo "test.sh: $1" >&2; exit 1; }
command -v c++ >/dev/null || fail "there is no C++ compiler: run \`apt-get install g++\`"
echo '#include <systemc>' | c++ -E -x c++ - >/dev/null 2>&1 || fail "SystemC is not installed: run \`apt-get install libsystemc-dev\`"
[ -f target/staticlib/libpmc330_c.a ] || fail "the archive is missing: run \`tools/build pmc330_c\`"

here=integrations/systemc
made=target/systemc
mkdir -p "$made"
build() {
    c++ -std=c++17 -Wall -Wextra -pedantic -Werror "$@" -Iinclude -I"$here" "$here/$name.cpp" target/staticlib/libpmc330_c.a -lsystemc -o "$made/$name"
}
# SystemC's own lines, on its licence and where a run was stopped, go
run() { ASAN_OPTIONS=detect_leaks=0 SYSTEMC_DISABLE_COPYRIGHT_MESSAGE=1 "$made/$name" "$@" | sed '/^$/d; /^Info: /d'; }

name=example
build
run | diff - "$here/example.expected" || fail "the example prints something else"
name=test
build -g -fsanitize=address,undefined -fno-sanitize-recover=all
run
run coarse
name=cost
build -O2
run
echo "test.sh: passed"
