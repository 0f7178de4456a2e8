# shellcheck shell=bash
# For the scripts in bash, which source it: where the repository is, help and errors, how a crate is proved and built by `rt` where what it
# is built into is missing or older than something in crates/, and how cargo is run for linked/.
root=$(CDPATH='' cd -- "$(dirname -- "${BASH_SOURCE[0]}")/.." && pwd)

fail() {
    echo "${0##*/}: $1" >&2
    exit 1
}

# The comment at the head of the script; its lines up to the first empty one say how it is called.
show_help() {
    sed -n '2,/^[^#]/s/^# \{0,1\}//p' "$0"
    exit 0
}

# bad_usage WHY
bad_usage() {
    {
        echo "${0##*/}: $1"
        sed -n '2,/^#$/s/^# //p' "$0"
    } >&2
    exit 2
}

# needs PROGRAM WHY
needs() {
    command -v "$1" >/dev/null || fail "no $1 on the PATH: $2"
}

# is_current FILE STAMP: is the file there, and nothing newer than the stamp, which is as old as the start of its build? What `rt` puts into
# out/ is not asked, and not the time of a crate's folder, which out/ moves.
is_current() {
    [ -e "$1" ] && [ -e "$2" ] && [ -z "$(find "$root/crates.txt" "$root/crates" -path "$root/crates/*/out" -prune -o \
        \( ! -type d -o -path "$root/crates" -o -path "$root/crates/*/*" \) -newer "$2" -print -quit)" ]
}

# How many crates a crate rests on, itself among them: crates.txt has each below those that it uses.
count_crates() {
    tac "$root/crates.txt" | awk -F '[: ]+' -v name="$1" '
        BEGIN { wanted[name] }
        /^[a-z]/ && $1 in wanted { count++; for (i = 2; i <= NF; i++) wanted[$i] }
        END { print count }'
}

# show_progress COUNT: of what `rt` prints, a line for each crate as soon as it is proved. Of so many crates it proves those that changed.
show_progress() {
    local line crate='' n=0
    while IFS= read -r line; do
        case $line in
        'crate '*': modules '*)
            crate=${line%%:*}
            crate=${crate#crate }
            ;;
        'logic=proved '*) echo "${0##*/}: $((++n)) of at most $1: $crate proved" >&2 ;;
        esac
    done
}

# build VERB CRATE NAME: `rt VERB` in the crate's folder writes out/NAME there. `rt` leaves a file that is right as it is; so the time of the
# start is that of a stamp in target/, and a source edited meanwhile is newer.
build() {
    local file=$root/crates/$2/out/$3 count stamp=$root/target/$3.built said=$root/target/$3.said
    ! is_current "$file" "$stamp" || return 0
    needs rt "the Rattle toolchain is needed to build $3"
    count=$(count_crates "$2")
    echo "${0##*/}: proving what changed of $count crates and building $3; the first time takes some minutes" >&2
    mkdir -p "$root/target"
    touch "$stamp.new"
    (cd "$root/crates/$2" && rt "$1" </dev/null 2>&1) | tee "$said" | show_progress "$count" ||
        fail "rt $1 in crates/$2 failed:"$'\n'"$(cat "$said")"
    [ -e "$file" ] || fail "rt $1 wrote no ${file#"$root"/}:"$'\n'"$(cat "$said")"
    mv "$stamp.new" "$stamp"
}

# cargo_linked build PROGRAM, cargo_linked test PROGRAM: of a program of linked/, over the proved library's archive.
cargo_linked() {
    needs cargo "it is needed to build linked/"
    build lib exports libexports.a
    ARCHIVE=$root/crates/exports/out CARGO_TARGET_DIR=$root/target/linked \
        cargo "$1" --quiet --release --offline --locked --manifest-path "$root/linked/Cargo.toml" --bin "$2" </dev/null
}
