# For scripts that source it in the repository's root: how the library is built, and whether what was built is as new as what it is
# made of.

# is_new FILE [MORE...]: whether FILE is there, and no source of a crate, no list of crates and none of MORE is newer. What the
# toolchain itself keeps in a crate's out/ is no source.
is_new() {
    local file=$1
    shift
    [ -f "$file" ] && [ -z "$(find crates crates.txt "$@" -path 'crates/*/out' -prune -o -type f -newer "$file" -print -quit)" ]
}

# build_library RT LOG: proves the library and leaves its archive, which is then $built. It is for every processor of x86-64, and not
# only for those that the toolchain builds for by itself (x86-64-v2).
built=crates/bokwingi/out/libbokwingi.a
build_library() {
    if ! (cd crates/bokwingi && "$1" lib --cpu x86-64) > "$2" 2>&1; then
        tail -n 20 "$2" >&2
        return 1
    fi
}
