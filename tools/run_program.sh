# Runs a program that `rt ci` or `rt run` linked: run_program NAME [WORDS..], from the project's root. Programs are compiled for x86-64: there
# they run natively, and on another machine under qemu-x86_64, where that is on the PATH. Sourced by `cube`, the gate and the tests.

# The words that stand before a program's name, one to a line: none where the machine runs it natively.
run_prefix() {
    if [ "$(uname -m)" = x86_64 ]; then
        return 0
    fi
    command -v qemu-x86_64 && return 0
    echo "they are compiled for x86-64, and qemu-x86_64 is not on the PATH" >&2
    return 1
}

run_program() {
    local name=$1 words word
    shift
    words=$(run_prefix) || return 1
    local prefix=()
    while IFS= read -r word; do
        [ -n "$word" ] && prefix+=("$word")
    done <<<"$words"
    ${prefix[@]+"${prefix[@]}"} "crates/$name/out/$name" "$@"
}
