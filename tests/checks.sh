# For tests that source it in the repository's root: how they count, and what holds of the library for every processor.
passed=0
failed=0

# need TOOL...: ends the test where one is missing
need() {
    local tool
    for tool; do
        if ! command -v "$tool" > /dev/null; then
            echo "$0 needs $tool"
            exit 2
        fi
    done
}

# check NAME COMMAND...: the command must end with 0
check() {
    local name=$1
    shift
    if "$@"; then
        passed=$((passed + 1))
    else
        failed=$((failed + 1))
        echo "FAILED: $name"
    fi
}

# asked_for ARCHIVE, defined ARCHIVE: the names that it takes from outside, and those that it has
asked_for() { nm -u "$1" | awk 'NF == 2 { print $2 }' | sort; }
defined() { nm -g --defined-only "$1" | awk 'NF == 3 { print $3 }' | sort; }

has_no_state() { ! nm "$1" | grep -q ' [BbCDdGgSs] ' && size "$1" | awk 'NR == 2 { exit ($2 + $3 > 0) }'; }

defines_what_the_header_declares() {
    diff <(defined "$1") <(grep -o '^uint32_t bokwingi_[a-z0-9_]*' include/bokwingi.h | cut -d' ' -f2 | sort)
}
