# shellcheck shell=sh disable=SC2034,SC2154,SC3013,SC3045
# What ./mv3c, .ci/run and .ci/release share: which sources a program is made of, whether a build or the release is of
# these very sources, and how it is built. A script reads it by '.' once it has set $top to the repository's folder.
#
# crates/NAME/out/built has the checksum of the sources that crates/NAME/out/NAME was built of. release/NAME.txt tells of
# release/NAME its own checksum (program), the kit that built it (kit), and the checksum of its sources (sources).

programs='mv3c mv_where mv_overlap mv_show'

# Prints the crate of a program and those that it stands on by crates.txt, lowest first, each with the crates it names.
crates_of() { # NAME
    awk -v program="$1" '
        function visit(crate,    names, count, i) {
            if (seen[crate]++ || !(crate in below)) return
            count = split(below[crate], names, " ")
            for (i = 1; i <= count; i++) visit(names[i])
            print crate ":" below[crate]
        }
        { sub(/#.*/, "") }
        split($0, halves, ":") == 2 { split(halves[1], words, " "); below[words[1]] = halves[2] }
        END {
            if (!(program in below)) { print "crates.txt has no crate " program >"/dev/stderr"; exit 1 }
            visit(program)
        }' "$top/crates.txt"
}

# Sets $sources to a checksum over all that the proof of a program reads, by path and content: its crates, and of each the
# .rt and .antt files of src/, specs/ and proofs/. It is kept in out/sources until something in crates/ changes, which the
# times of the last change of any kind tell. 'anew' reads all files.
find_sources() { # NAME [anew]
    crates=$(crates_of "$1") || return 1
    kept=$top/crates/$1/out/sources
    name=$1 anew=${2:-}
    set --
    while IFS=: read -r crate _; do
        for part in src specs proofs; do
            [ -d "$top/crates/$crate/$part" ] && set -- "$@" "crates/$crate/$part"
        done
    done <<END
$crates
END
    if [ -z "$anew" ] && [ -f "$kept" ]; then
        changed=$(cd "$top" && find crates.txt crates -name out -prune -o -newercm "$kept" -print -quit 2>&1)
        [ -z "$changed" ] && read -r sources <"$kept" && return
    fi
    mkdir -p "$top/crates/$name/out" 2>/dev/null && touch "$kept.begun.$$" 2>/dev/null
    sources=$({
        printf '%s\n' "$crates"
        cd "$top" && find "$@" -type f \( -name '*.rt' -o -name '*.antt' \) -print0 | LC_ALL=C sort -z | xargs -0 sha256sum
    } | sha256sum) || return 1
    sources=${sources%% *}
    if [ -f "$kept.begun.$$" ]; then
        echo "$sources" >"$kept.$$" && touch -r "$kept.begun.$$" "$kept.$$" && mv "$kept.$$" "$kept"
        rm -f "$kept.begun.$$"
    fi
}

# Whether the program in out/ was built of $sources.
is_built() { # NAME
    [ -x "$top/crates/$1/out/$1" ] && [ -f "$top/crates/$1/out/built" ] || return 1
    [ "$top/crates/$1/out/$1" -nt "$top/crates/$1/out/built" ] && return 1
    read -r built <"$top/crates/$1/out/built"
    [ "$built" = "$sources" ]
}

# Notes that the program in out/ was built of $sources.
note_built() { # NAME
    echo "$sources" >"$top/crates/$1/out/built"
}

# Prints what release/NAME.txt says of the program, the kit or the sources.
told() { # NAME WHAT
    while read -r what value; do
        [ "$what" = "$2" ] && echo "$value"
    done <"$top/release/$1.txt"
}

# Whether the released program was built of $sources and is for this machine.
is_released() { # NAME
    [ -x "$top/release/$1" ] && [ -f "$top/release/$1.txt" ] || return 1
    [ "$(told "$1" sources)" = "$sources" ] && [ "$(uname -sm)" = 'Linux x86_64' ]
}

# Proves all crates of a program and builds it, and tells on standard error how far it is.
build() { # NAME
    echo "$1: no build and no release of these sources is here, so everything is proved first." >&2
    if ! command -v rt >/dev/null; then
        echo "$1: that needs the Rattle kit, whose command rt isn't found." >&2
        return 1
    fi
    log=$top/crates/$1/out/build.log
    mkdir -p "$top/crates/$1/out" && rm -f "$top/crates/$1/out/built" || return 1
    case "$1" in
        mv3c) echo "$1: from nothing that takes about 45 minutes on four processors, and 7 GB of disk." >&2 ;;
        *) echo "$1: from nothing that takes some minutes." >&2 ;;
    esac
    echo "$1: Ctrl-C stops it. The next start goes on with the crate at which this one stopped." >&2
    watch "$1" $$ </dev/null >&2 &
    watcher=$!
    trap 'kill $watcher 2>/dev/null; echo "'"$1"': stopped. The next start goes on." >&2; exit 130' INT TERM HUP
    (cd "$top/crates/$1" && exec rt run -- run </dev/null >"$log" 2>&1)
    status=$?
    kill $watcher 2>/dev/null
    trap - INT TERM HUP
    if [ $status != 0 ]; then
        cat "$log" >&2
        echo "$1: the build failed, as told above and in $log." >&2
        return 1
    fi
    was=$sources
    find_sources "$1" anew && [ "$sources" = "$was" ] && note_built "$1"
    echo "$1: built." >&2
}

# Tells which crate is being proved, the first without a finished library, whenever it or the minute changes.
watch() { # NAME PROCESS: until that process ends
    count=$(echo "$crates" | wc -l)
    begun=$(date +%s)
    shown=
    while kill -0 "$2" 2>/dev/null; do
        number=1
        while IFS=: read -r crate _; do
            [ -f "$top/crates/$crate/out/rlib/stamp" ] || break
            number=$((number + 1))
        done <<END
$crates
END
        line="$1: crate $number of $count ($crate), $((($(date +%s) - begun) / 60)) minutes so far"
        [ "$line" = "$shown" ] || echo "$line"
        shown=$line
        sleep 5 >/dev/null 2>&1
    done
}

# Says how the C library takes memory. It keeps 256 freed blocks of each size at hand, and not seven: a call of a script
# frees and takes as many. It asks the system for 16 MiB at a time, and for large pages: rows are read from all over the
# memory. Tunables that are set already stay.
tune_memory() {
    export GLIBC_TUNABLES="${GLIBC_TUNABLES-glibc.malloc.tcache_count=256:glibc.malloc.hugetlb=1:glibc.malloc.top_pad=16777216}"
}

# Gives each stack of mv3c 16 MiB, in which every accepted script fits: that of the main thread, and those of the workers,
# which take over its bound. Where the system allows less, they are as large as they may be.
set_stack() {
    ulimit -S -s 16384 2>/dev/null && return
    most=$(ulimit -H -s)
    ulimit -S -s "$most"
    echo "mv3c: a stack has at most $most KiB here (ulimit -H -s). A script that needs more, up to 16384 KiB, ends with 139." >&2
}

# Runs a program: the build of these sources, or the release of these sources, or what is built now.
start() { # NAME WORDS..
    find_sources "$1" || exit 70
    if is_built "$1"; then
        program=$top/crates/$1/out/$1
    elif is_released "$1"; then
        program=$top/release/$1
    else
        build "$1" || exit 70
        program=$top/crates/$1/out/$1
    fi
    case "$1" in mv3c | mv_overlap) set_stack ;; esac
    shift
    tune_memory
    exec "$program" "$@"
}
