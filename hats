#!/bin/sh
# Runs hats with these words in the caller's own folder, and ends with its status. Builds it first where it is
# missing or older than its sources: a line for each crate goes to standard error, and what rt says into a log. Ends
# with 70 where the build fails. Needs `rt` on the path.
here=$(dirname "$(readlink -f "$0")")
program=$here/crates/hats/out/hats
log=$here/crates/hats/out/build.log

is_stale() {
    [ ! -x "$program" ] ||
        [ -n "$(find "$here/crates.txt" "$here"/crates/*/src "$here"/crates/*/specs "$here"/crates/*/proofs -newer "$program" 2>/dev/null | head -n 1)" ]
}

# The crates that the program needs, in the order of crates.txt, where each stands behind those that it stands on.
needed_crates() {
    awk -F '[: ]+' '
        /^[a-z]/ { crates[++count] = $1; lines[count] = $0 }
        END {
            needed["hats"]
            for (i = count; i > 0; i--)
                if (crates[i] in needed) {
                    fields = split(lines[i], names)
                    for (j = 2; j <= fields; j++) needed[names[j]]
                }
            for (i = 1; i <= count; i++) if (crates[i] in needed) print crates[i]
        }' "$here/crates.txt"
}

# Proves and builds a crate. rt builds the program by running it: once, on the stored example.
build_crate() {
    cd "$here/crates/$1" || return
    if [ "$1" = hats ]; then
        rt run -- histogram 0 data/a.csv
    else
        rt lib
    fi
}

build() {
    if ! command -v rt >/dev/null; then
        echo "hats: the build needs Rattle's command rt on the path" >&2
        return 1
    fi
    mkdir -p "$here/crates/hats/out" && : >"$log" || return
    begun=$(date +%s)
    crates=$(needed_crates)
    count=$(echo "$crates" | wc -l)
    number=0
    for crate in $crates; do
        number=$((number + 1))
        echo "hats: proving and building $crate, $number of $count, $(($(date +%s) - begun)) s so far" >&2
        if ! (build_crate "$crate") >>"$log" 2>&1 </dev/null; then
            echo "hats: the build of $crate failed, see $log" >&2
            return 1
        fi
    done
    touch "$program"
    echo "hats: built in $(($(date +%s) - begun)) s" >&2
}

if is_stale; then
    build || exit 70
fi
exec "$program" "$@"
