# Sourced by the benchmarks, in the repository's folder: the archive of a static library, plain C, a linker, and the medians.
. tests/kit.sh
work=$(mktemp -d)
trap 'rm -rf "$work"' EXIT
for link in cc gcc clang ''; do
    if [ -n "$link" ] && command -v "$link" >/dev/null; then break; fi
done

# the crate's archive becomes $work/CRATE.a
native() { # CRATE
    archive "$1" >"$work/say" 2>&1 || { cat "$work/say"; exit 1; }
    cp "crates/$1/out/lib$1.a" "$work/$1.a"
    echo "Measured: the archive of rt lib, x86-64, on $(sed -n 's/^model name[^:]*: //p' /proc/cpuinfo | head -1)."
}

# plain C, by the kit's clang
plain() { # SOURCE OBJECT WORDS..
    source=$1 object=$2
    shift 2
    "$tools/bin/clang" --target=x86_64-unknown-linux-gnu -std=c11 -O2 -fPIC "$@" -c "$source" -o "$object"
}

# links $work/run, by the kit's own linker where the machine has no C compiler, and sets `program` to it
linked() { # OBJECTS..
    program=$work/run
    if [ -n "$link" ]; then
        "$link" -o "$program" "$@"
    else
        link86 "$program" "$@"
    fi
}

# an awk function: the median of a list of numbers, and its least and most
middle='
function middle(list,   a, n, i, j, x) {
    n = split(list, a, " ")
    for (i = 2; i <= n; i++)
        for (j = i; j > 1 && a[j] + 0 < a[j - 1] + 0; j--) { x = a[j]; a[j] = a[j - 1]; a[j - 1] = x }
    least = a[1]; most = a[n]
    return a[int((n + 1) / 2)]
}'
