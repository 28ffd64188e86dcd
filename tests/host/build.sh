# Sourced in the repository's folder, after tests/kit.sh: the tests' programs, the stand-in in plain C, and bugs for it.
compile() { # SOURCE OBJECT WORDS..
    compile86 "$@" -Wall -Wextra -Werror -Iinclude -Ibench/host
}

# plain C under the library's names, to stand in for the archive
stand_in() { # SOURCE OBJECT
    set -- "$1" "$2" -Wno-unused-function
    for call in record_bytes fresh read handle handle_why restart work cut next_message serial_bytes serial_fresh serial; do
        set -- "$@" "-Dplain_$call=grzelotka_$call"
    done
    compile "$@"
}

# sets `library` to what is tested: the archive, built here; or GRZELOTKA_OBJECT, which is an object's file, or the word plain for the stand-in
choose_library() { # FOLDER
    library=${GRZELOTKA_OBJECT:-}
    case $library in
    '')
        archive grzelotka >"$1/said" 2>&1 || { cat "$1/said"; return 1; }
        library=crates/grzelotka/out/libgrzelotka.a
        ;;
    plain)
        library=$1/stand_in.o
        stand_in bench/host/plain.c "$library"
        ;;
    *) [ -f "$library" ] || { echo "GRZELOTKA_OBJECT: there is no file $library" >&2; return 2; } ;;
    esac
}

# a copy of the stand-in in plain C with one bug in it
put_bug() { # BUG COPY
    python3 -B - "$1" bench/host/plain.c >"$2" <<'END'
import sys
lines = open(sys.argv[1]).read().splitlines()
old, new = lines[1].removeprefix('old: '), lines[2].removeprefix('new: ')
source = open(sys.argv[2]).read()
if source.count(old) != 1:
    sys.exit(f'{sys.argv[1]}: its old text stands {source.count(old)} times')
print(source.replace(old, new), end='')
END
}

# the tests' objects, once
compile_tests() { # FOLDER
    for test in calls sweep damaged driver; do
        compile "tests/host/$test.c" "$1/$test.o" || return 1
    done
}

# the tests' programs, with the library or what stands in for it
link_tests() { # FOLDER LIBRARY
    for test in calls sweep damaged driver; do
        link86 "$1/$test" "$1/$test.o" "$2" || return 1
    done
}

# one test, with its seed: STEPS steps of fuzz, STATES states of damaged, VERDICTS states of verdicts; places needs none
test_host() { # TEST FOLDER SEED
    case $1 in
    fuzz) python3 -B tests/host/fuzz.py --seed "$3" --steps "${STEPS:-200000}" "$2/driver" ;;
    verdicts) python3 -B tests/host/verdicts.py --seed "$3" --steps "${VERDICTS:-20}" "$2/driver" ;;
    damaged) "$2/damaged" "$3" "${STATES:-40}" ;;
    places) python3 -B tests/host/places.py ;;
    *) "$2/$1" "$3" ;;
    esac
}
