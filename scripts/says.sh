# shellcheck shell=bash
# Sourced by the tests of scripts, after common.sh: a command and what it has to say.
count=0

# Runs a command with an empty input, which has to end with STATUS and to say the lines on standard input, on stdout and stderr together.
says() {
    local status=$1 said
    shift
    cat >"$made/expected"
    "$@" >"$made/said" 2>&1 </dev/null && said=0 || said=$?
    diff "$made/expected" "$made/said" >&2 || fail "'$*' does not say what it should"
    [ "$said" -eq "$status" ] || fail "'$*' ends with $said and not with $status"
    count=$((count + 1))
}
