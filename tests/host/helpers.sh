# Shared by the host program's tests; to be read by a script that has set `name`, its own name.
# What is in parentheses keeps its variables to itself.

fail() {
    # shellcheck disable=SC2154
    echo "$name: $1" >&2
    exit 1
}

# bytes NUMBER..: bytes with these values
bytes() {
    # shellcheck disable=SC2059
    printf "$(printf '\\%03o' "$@")"
}

zeros() {
    head -c "$1" /dev/zero
}

# record KIND POSITION OLD-NAME NEW-NAME [CLIP CLIP CLIP CLIP]: a correction record
record() (
    kind=$1 position=$2 old=$3 new=$4
    shift 4
    [ $# -eq 4 ] || set -- 0 0 0 0
    bytes "$kind" ${#old} ${#new} 0 $((position >> 24 & 255)) $((position >> 16 & 255)) $((position >> 8 & 255)) $((position & 255)) \
        $(($1 >> 8)) $(($1 & 255)) $(($2 >> 8)) $(($2 & 255)) $(($3 >> 8)) $(($3 & 255)) $(($4 >> 8)) $(($4 & 255))
    printf %s "$old"
    zeros $((40 - ${#old}))
    printf %s "$new"
    zeros $((40 - ${#new}))
)

# patched FILE PLACE NUMBER..: the file with other bytes from this place on
patched() (
    file=$1 place=$2
    shift 2
    head -c "$place" "$file"
    bytes "$@"
    tail -c +$((place + $# + 1)) "$file"
)

# no_copy FOLDER: nothing in this folder has the name of a copy
no_copy() {
    ! find "$1" -name '.*.sffstore' | grep -q .
}
