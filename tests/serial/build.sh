# Sourced in the repository's folder, after tests/kit.sh and tests/host/build.sh: the serial line's tests.
# the tests' objects, once; the host of docs/SERIAL.md is one of them
compile_line() { # FOLDER
    awk '/^```/ { on = ($0 == "```c" && ++seen == 1); next } on' docs/SERIAL.md >"$1/page.c"
    awk '/^```/ { on = ($0 == "```text" && ++seen == 1); next } on' docs/SERIAL.md >"$1/page.wanted"
    compile tests/serial/serial.c "$1/serial.o" -Itests/host && compile tests/host/driver.c "$1/driver.o" && compile "$1/page.c" "$1/page.o" -std=c11
}

# the tests' programs, with the library or what stands in for it
link_line() { # FOLDER LIBRARY
    for test in serial driver page; do
        link86 "$1/$test" "$1/$test.o" "$2" || return 1
    done
}

# one test, with its seed: STREAMS streams of streams; page says what docs/SERIAL.md shows
test_line() { # TEST FOLDER SEED
    case $1 in
    streams) python3 -B tests/serial/streams.py --seed "$3" --steps "${STREAMS:-50000}" "$2/driver" ;;
    page) "$2/page" >"$2/page.said" && diff "$2/page.wanted" "$2/page.said" && echo "page: the host of docs/SERIAL.md says what stands there" ;;
    *) "$2/$1" "$3" ;;
    esac
}
