#!/usr/bin/env bash
# Links painter.c with the proved archive for this machine's processor, unless that stands already, and
# runs it, standard input to standard output. `painter.sh build` links alone.
set -euo pipefail
here=$(cd "$(dirname "${BASH_SOURCE[0]}")" && pwd)
. "$here/../tools/lib.sh"
program=$top/target/people/$processor/painter

# Whether the program stands and nothing that it is made of is newer.
is_built() {
    [ "$program" -nt "$here/painter.c" ] && [ "$program" -nt "$top/include/spoonwing.h" ] &&
        has_plain_archive && [ "$program" -nt "$plain_archive" ]
}

if ! is_built; then
    mkdir -p "$(dirname "$program")"
    # Under another name until it is whole, since two commands may build at a time.
    link_host "$program.$$" "$here/painter.c" >&2
    mv "$program.$$" "$program"
fi
if [ "${1:-}" != build ]; then become "$program"; fi
