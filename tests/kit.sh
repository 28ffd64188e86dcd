# Sourced by the gate, the tests, the benchmarks and bin/cc86: what a bare machine may lack, where the kit's tools are, and how they compile and
# link C. `root` is the repository's folder; unset, it is the one that we are in.

# what a test needs, by its command and its packages
need() { # COMMAND PACKAGES..
    needed=$1
    shift
    command -v "$needed" >/dev/null 2>&1 && return 0
    { apt-get update && apt-get install -y --no-install-recommends "$@"; } >/dev/null 2>&1
    command -v "$needed" >/dev/null 2>&1 || { echo "$needed is missing and $* can't be installed" >&2; return 1; }
}

# rt is itself a program in Python
need python3 python3 || exit 2
command -v rt >/dev/null 2>&1 || { echo "the kit's command, rt, is not in PATH" >&2; exit 2; }
kit=$(cd "$(dirname "$(rt doc)")" && pwd -P)
tools=$kit/toolchain

# C, compiled by the kit's clang; it has no C headers, so tests/include has those few that are needed
compile86() { # SOURCE OBJECT WORDS..
    source=$1 object=$2
    shift 2
    "$tools/bin/clang" --target=x86_64-unknown-linux-gnu -O2 -fPIC -nostdinc -isystem "${root:-.}/tests/include" "$@" -c "$source" -o "$object"
}

# objects and archives, linked with the kit's C library; the program runs by itself
link86() { # PROGRAM OBJECTS..
    program=$1
    shift
    said=$("$kit/bin/rattle-link" --target x86_64-unknown-linux-gnu --toolchain "$tools" -o "$program" "$@" 2>&1) || { echo "$said"; return 1; }
}

# the archive of a static library, proved and compiled: crates/CRATE/out/libCRATE.a
archive() { # CRATE
    (cd "crates/$1" && rt lib)
}
