# What all checks share: they try commands, and add up how these end. $work is a folder that is removed at the end.
# shellcheck shell=bash disable=SC2034,SC2154 # others read and set some of these
passed=0 failed=0
work=$(mktemp -d) && chmod 755 "$work" || exit 2
trap 'rm -rf "$work"' EXIT

# Runs a command and reports how it ended. Its output goes to $work/log. If it is a function, what this runs goes to $work/trace, so that a
# failure shows at which command of many it stopped.
try() { # WHAT COMMAND ..
    local what=$1 status=0 PS4='+${BASH_SOURCE[0]##*/}:$LINENO: '
    shift
    exec {BASH_XTRACEFD}> "$work/trace"
    set -x
    "$@" > "$work/log" 2>&1 || status=$?
    set +x
    BASH_XTRACEFD=
    if [[ $status -eq 0 ]]; then
        passed=$((passed + 1))
        echo "ok: $what ($(tail -n 1 "$work/log" | cut -c 1-100))" | sed 's/ ()$//'
    else
        failed=$((failed + 1))
        echo "FAILED: $what" | tee -a "$work/failures"
        tail -n 12 "$work/log"
        echo "It ended with status $status. The last commands that ran, each with its file and line:"
        head -n -2 "$work/trace" | tail -n 4 | cut -c 1-300
    fi
}
# Whether programs or a header are there. If not, what needs them is named, with the packages of Debian that have them.
has() { # PROGRAMS WHAT [PACKAGES]
    local program
    for program in $1; do command -v "$program" > /dev/null || skipped "$2" "$program" "${3:-}" || return; done
}
has_header() { echo "#include <$2>" | $1 -E - > /dev/null 2>&1 || skipped "$3" "$2" "${4:-}"; } # COMPILER HEADER WHAT [PACKAGES]
skipped() { echo "skipped: $1 ($2 is not installed${3:+: apt-get install $3})" | tee -a "$work/parts" && return 1; }
try_by() { ! has "$1" "$2" || try "${@:2}"; } # PROGRAMS WHAT COMMAND ..
end() {
    # A host may keep only the end of what is printed, so that has what failed.
    [[ $failed -eq 0 || ! -s $work/failures ]] || { echo '== what failed' && cat "$work/failures"; }
    echo "$passed passed, $failed failed"
    [[ $failed -eq 0 ]]
    exit
}
# Prints the lines of a part that say what failed: these have a word in capitals, or are its last ones.
what_failed() { # HOW MANY
    { grep -aE 'NOT |FAILED|MISSED' "$work/part" || true; tail -n $(($1 + 1)) "$work/part"; } | awk '!seen[$0]++'
}
# Runs a part, and adds what its last line says. A part that ends in another way has failed, whatever it said.
part() { # COMMAND ..
    local status=0
    echo "== $*"
    "$@" 2>&1 | tee "$work/part" || status=$?
    cat "$work/part" >> "$work/parts"
    if [[ $(tail -n 1 "$work/part") =~ ^([0-9]+)\ (passed|proved|refused),\ ([0-9]+)\ (failed|missed)(\;.*)?$ ]]; then
        passed=$((passed + BASH_REMATCH[1])) failed=$((failed + BASH_REMATCH[3]))
        [[ ${BASH_REMATCH[3]} -eq 0 ]] || what_failed "${BASH_REMATCH[3]}" >> "$work/failures"
        [[ $status -eq 0 || ${BASH_REMATCH[3]} -gt 0 ]] && return
    fi
    echo "failed: $* ended with status $status, and not with a line 'N passed, M failed' that says why" | tee -a "$work/failures"
    failed=$((failed + 1))
}
