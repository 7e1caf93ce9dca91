# What the checks of callers share: they build programs over the libraries that are installed below $prefix, by $CC. $RUN runs these if the
# processor is another one. Each check gets a key, and NIST's vectors if they are installed.
# shellcheck shell=bash disable=SC2034,SC2154 # others read and set some of these
source "${BASH_SOURCE[0]%/*}/../tools/checks.sh"
prefix=${prefix:-} cc=${CC:-cc}

# Runs a program that $CC made.
on_target() { # PROGRAM WORD ..
    local by
    read -ra by <<< "${RUN:-}"
    "${by[@]}" "$@"
}
strict=(-Wall -Wextra -pedantic -Wconversion -Wshadow -Werror -O2) link=() files=()
# Builds a program with what `link` names, and runs it with the words of `files`.
program() { # COMPILER SOURCE FLAGS ..
    "$1" "${strict[@]}" -I"$prefix/include" "${@:2}" "${link[@]}" -o "$work/program" && on_target "$work/program" "${files[@]}"
}
hwcaps=lib/glibc-hwcaps/x86-64-v3
soname() { basename "$(readlink "$prefix/lib/lib$1.so")"; } # LIBRARY
statically() { link=("$prefix/lib/lib$1.a"); } # LIBRARY
# A command fails with this status and these words on the standard error, and gives nothing out.
says() { # STATUS WORDS COMMAND ..
    local status=0
    "${@:3}" > "$work/answer" 2> "$work/errors" || status=$?
    [[ $status -eq $1 && ! -s $work/answer ]] && grep -e "$2" "$work/errors" && return
    echo "${*:3} ends with $status:" && cat "$work/errors" && return 1
}
# Sets `source_folder` to the source of another library: a folder, or else Debian's package, where apt-get's sources (deb-src) are enabled.
get_source() { # PACKAGE [FOLDER]
    source_folder=${2:-}
    [[ -z $source_folder ]] || return 0
    if mkdir "$work/source" && (cd "$work/source" && apt-get -qq source "$1") > "$work/log" 2>&1; then
        source_folder=$(echo "$work/source/$1"-*/)
    else
        echo "skipped: $1 over the library (apt-get source $1 fails: enable deb-src, or name a folder)" && return 1
    fi
}
into_a_full_device() { "$@" > /dev/full; } # COMMAND ..
# Each failure of a program that seals a message has words of its own.
message_fails() { # COMMAND ..
    head -c 31 "$work/key" > "$work/short"
    says 2 '^usage: message' "$@" && says 1 '^message.*nowhere' "$@" "$work/nowhere" && says 1 '^message.*32' "$@" "$work/short" &&
        says 1 "^message.* \\(device\\|can't be written\\)$" into_a_full_device "$@" "$work/key"
}
head -c 32 /dev/urandom > "$work/key"
# NIST's vectors of GCM, CBC and key wrap, if they are installed.
vectors_folder=$(python3 -c 'import cryptography_vectors as v; print(v.__path__[0])' 2> /dev/null) ||
    vectors_folder=/usr/lib/python3/dist-packages/cryptography_vectors
readarray -t vectors < <(ls "$vectors_folder"/ciphers/AES/{GCM/gcm*,CBC/*}.rsp "$vectors_folder"/keywrap/kwtestvectors/KW{,P}_A?_???.txt 2> /dev/null)
