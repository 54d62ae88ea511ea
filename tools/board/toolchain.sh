# For scripts that source it in the repository's root: the toolchain's own clang as a compiler for the board.
if ! command -v rt > /dev/null; then
    echo "$0: the Rattle toolchain (rt) is not on the PATH" >&2
    exit 2
fi
# the folder of the toolchain: rt lies in its bin/, clang and llvm-ar in toolchain/bin/
rattle_home=$(dirname "$(dirname "$(readlink -f "$(command -v rt)")")")
board_triple=thumbv6m-none-eabi

# board_clang OPTION...: for the board's processor, with no setting of the machine's own
board_clang() {
    "$rattle_home/toolchain/bin/clang" "--target=$board_triple" --no-default-config -Werror -O2 -ffunction-sections -fdata-sections "$@"
}

# board_c OPTION...: a program in C that has no C library beneath it; the headers are those of examples/board
board_c() {
    board_clang -std=c99 -Wall -Wextra -ffreestanding -fno-builtin -fshort-enums -nostdinc -Iexamples/board/include "$@"
}

# compile_helpers SOURCE OBJECT
compile_helpers() {
    board_c -fstack-size-section -c "$1" -o "$2"
}
