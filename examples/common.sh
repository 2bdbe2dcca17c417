# What the examples share: the program, a room for their files, and what is said of tools that are missing.
# ISO and FAULTS name the programs; where one is not set, it is the installed one, or the one that `rt ci` built.
# With a folder as its word, an example leaves its files there; else they are removed at the end.
set -euo pipefail
example=$(basename "$(dirname "$(readlink -f "$0")")")
here=$(dirname "$(readlink -f "$0")")
examples=$(dirname "$here")
program=${ISO:-$(command -v iso || echo "$examples/../crates/iso/out/iso")}
if ! command -v "$program" > /dev/null; then
    echo "$example: there is no program: run rt ci or ./install, or set ISO"
    exit 1
fi
program=$(readlink -f "$(command -v "$program")")
iso() { "$program" "$@"; }
faults=${FAULTS:-$(command -v faults || echo "$examples/../crates/faults/out/faults")}

need() { # PACKAGE TOOL: ends the example where the tool is not there
    command -v "$2" > /dev/null && return
    echo "$example: passed over: $2 is not installed (package $1 of Debian)"
    exit 0
}

picture() { # WORD..: f3d without a screen
    timeout 60 xvfb-run -a f3d "$@"
}

same() { # WHAT WANTED FOUND
    if [ "$2" != "$3" ]; then
        echo "$example: FAILED: $1: wanted $2, found $3"
        exit 1
    fi
    echo "$example: $1: $3"
}

if [ $# -gt 0 ]; then
    mkdir -p "$1"
    cd "$1"
else
    room=$(mktemp -d)
    trap 'rm -rf "$room"' EXIT
    cd "$room"
fi
