# What `run` tries of the installation, of the file of configuration and of the command fotsgure-openssl.
# shellcheck shell=bash disable=SC2154 # run, which reads this, sets the names

# A file of configuration, from its lines. Its module is the one under test.
file() { printf '%s\n' "${@:2}" > "$work/$1.cnf"; } # NAME LINE ..
ends_with() { # STATUS WORDS COMMAND .. : and with these words in what it prints
    local status=0
    "${@:3}" > "$work/output" 2>&1 || status=$?
    [[ $status -eq $1 ]] && grep -F -- "$2" "$work/output" && return
    echo "status $status"
    cat "$work/output"
    return 1
}
under() { OPENSSL_CONF=$work/$1.cnf "${@:2}"; } # NAME COMMAND ..
merged() { "$command" --configuration "$module" "$work/$1.cnf" > "$work/merged.cnf"; } # NAME
least_version() { "$python" -c 'import ssl; print(ssl.SSLContext(ssl.PROTOCOL_TLS_CLIENT).minimum_version.name)'; }

# fotsgure-openssl tells our module from one that isn't preferred, and sees that a program is left without a hash or random numbers.
says_which_provider() {
    sed 's/^default_properties = .*/default_properties = ?provider=default/' "$conf" > "$work/other.cnf"
    sed 's/= ?provider/= provider/' "$conf" > "$work/demands.cnf"
    sed '/^default = /d' "$conf" > "$work/alone.cnf"
    sed 's/^default_properties = /&fips=yes,/' "$conf" > "$work/fips.cnf"
    ends_with 0 'AES-256-GCM-SIV: fotsgure' under fotsgure "$command" &&
        ends_with 1 "but the configuration doesn't prefer it" under other "$command" &&
        ends_with 3 'SHA2-256: none' under demands "$command" && ends_with 3 'Programs find no hash' under alone "$command" &&
        ends_with 3 'demands fips=yes' under fips "$command" && ends_with 2 usage "$command" -x &&
        ends_with 2 'No space left' into_a_full_device "$command" --help
}
# If nothing comes from the module, it gives the one reason.
says_the_reason() {
    local bare=() reason="26 algorithms don't come from fotsgure: "
    [[ $(id -u) -ne 0 ]] || bare=(setpriv --inh-caps=-all --bounding-set=-all) # root, without its right to read all files
    sed 's|^module = .*|module = /nowhere/fotsgure.so|' "$conf" > "$work/wrong.cnf"
    cp "$conf" "$work/closed.cnf" && chmod 0 "$work/closed.cnf"
    file empty ''
    file gone 'openssl_conf = i' '[i]'
    file early 'openssl_conf = i' '[i]' 'alg_section = nowhere' 'providers = fotsgure_providers'
    sed -n '/^\[fotsgure_providers]/,$p' "$conf" >> "$work/early.cnf"
    merged gone && rm "$work/gone.cnf" || return
    ends_with 1 "$reason$work/gone.cnf, which $work/merged.cnf includes: No such file" under merged "$command" &&
        ends_with 1 "$reason$work/closed.cnf: Permission denied" under closed "${bare[@]}" "$command" &&
        ends_with 1 "$reason$work/never.cnf: No such file" under never "$command" &&
        ends_with 1 "$reason/nowhere/fotsgure.so: cannot open shared object file" under wrong "$command" &&
        ends_with 1 "$reason$work/empty.cnf activates no provider fotsgure" under empty "$command" &&
        ends_with 1 'stops before the module: module=alg_section' under early "$command" &&
        ends_with 1 "${reason}OPENSSL_CONF names no file" env OPENSSL_CONF= "$command" &&
        ends_with 1 "${reason}OPENSSL_CONF isn't set, and " env -u OPENSSL_CONF "$command"
}
says_noexec() {
    sed "s|^module = .*|module = $work/again/fotsgure.so|" "$conf" > "$work/noexec.cnf"
    # shellcheck disable=SC2016 # the inner bash's
    ends_with 1 "$work/again/fotsgure.so is on a file system that is mounted with noexec" under noexec unshare -m bash -c \
        'mount -t tmpfs -o noexec none "$2" && cp "$1" "$2" && exec "$3"' - "$module" "$work/again" "$command"
}
# It tells a process that has loaded the module, and used it, from one that hasn't, and from one whose module was replaced.
says_of_a_process() {
    local mine
    cp "$module" "$work/again/fotsgure.so" && "$command" --configuration "$work/again/fotsgure.so" > "$work/again.cnf" || return
    OPENSSL_CONF=$work/again.cnf "$python" -c 'import ssl, time; ssl.SSLContext(ssl.PROTOCOL_TLS_CLIENT); ssl.RAND_bytes(9)
print("started", flush=True); time.sleep(600)' > "$work/started" &
    mine=$!
    comes "$work/started"
    ends_with 0 "has loaded $work/again/fotsgure.so" "$command" "$mine" &&
        grep '^Keys that it has set with the module: [1-9]' "$work/output" && ends_with 1 "hasn't loaded" "$command" $$ &&
        cp "$module" "$work/again/new" && mv "$work/again/new" "$work/again/fotsgure.so" &&
        ends_with 4 'that file is gone by now' "$command" "$mine" && rm "$work/again/fotsgure.so" &&
        ends_with 4 'that file is gone by now' "$command" "$mine" && ends_with 2 'No such file' "$command" 99999999
    local status=$?
    kill "$mine"
    return $status
}

# The file of configuration over one of the system's, with a least version of TLS and a provider of its own, partly in a file that it
# includes; a section that nothing names has names that mean something elsewhere. What programs had stays.
settings_stay() (
    unset OPENSSL_MODULES
    mkdir -p "$work/drop-ins"
    file drop-ins/legacy '[theirs]' 'legacy = old' '[old]' 'activate = 1'
    file system 'openssl_conf = system' ".include $work/drop-ins" '[system]' 'providers=theirs' ' ssl_conf = tls # as Debian had it' \
        '[theirs]' 'default = its_own' '[its_own]' 'activate = 1' '[tls]' 'system_default = tls_default' '[tls_default]' \
        'MinProtocol = TLSv1.3' '[unrelated]' 'providers = nonsense' 'alg_section = nonsense' 'default_properties = x=y'
    merged system && ends_with 0 'random numbers: default' under merged "$command" && under merged openssl list -providers | grep -w legacy &&
        [[ $(under merged least_version) == TLSv1_3 && $(OPENSSL_CONF=$conf least_version) != TLSv1_3 ]] || return
    # One that has no section for libcrypto; one that prefers something else, in more words; one that names a section by a variable.
    file none '[other]' 'a = b'
    file algorithms 'openssl_conf = i' '[i]' 'alg_section = e' '[e]' 'default_properties = ?fips=yes , ?x.y=z # none'
    # shellcheck disable=SC2016 # OpenSSL's variable
    file variable 'part = one' 'openssl_conf = section_$part' '[section_one]' 'providers = theirs' '[theirs]' 'legacy = old' 'default = d' \
        '[old]' 'activate = 1' '[d]' 'activate = 1'
    for system in none algorithms variable; do
        merged "$system" && ends_with 0 'AES-128-ECB: fotsgure' under merged "$command" || return
    done
    under merged openssl list -providers | grep -w legacy && merged algorithms &&
        grep -x 'default_properties = ?fips=yes , ?x.y=z,?provider=fotsgure' "$work/merged.cnf"
)
# A system may demand `fips=yes`, or withhold the provider default. Then it isn't given a file that changes this.
demands_stay() {
    local properties
    for properties in '?x.y=z , fips=yes' 'fips = yes' 'a=b, fips=yes'; do
        file demanding 'openssl_conf = i' '[i]' 'alg_section = e' '[e]' "default_properties = $properties"
        ends_with 2 'demands fips=yes' merged demanding || return
    done
    file mode 'openssl_conf = i' '[i]' 'alg_section = e' '[e]' 'fips_mode = yes'
    ends_with 2 'demands fips=yes' merged mode || return
    file withheld 'openssl_conf = i' '[i]' 'providers = p' '[p]' 'base = b' '[b]' 'activate = 1'
    file exclusive 'openssl_conf = i' '[i]' 'alg_section = e' '[e]' 'default_properties = provider!=legacy'
    ends_with 2 'it allows each name once' merged exclusive || return
    merged withheld && ! grep '^default = ' "$work/merged.cnf" && ends_with 3 'Programs find no hash' under merged "$command" &&
        ends_with 2 'has to begin with /' "$command" --configuration fotsgure.so &&
        file broken '[i' && ends_with 2 "line 1 isn't understood" merged broken && ends_with 2 "can't be read" merged nowhere
}

# While an update runs, the module and the file of configuration are there.
stay_there() { # FOLDER COMMAND ..
    local at=$1 updating
    "${@:2}" & updating=$!
    while kill -0 "$updating" 2> /dev/null; do
        [[ -s $at/lib/ossl-modules/fotsgure.so && -s $at/etc/fotsgure-openssl.cnf ]] || { echo 'gone during an update'; return 1; }
    done
    wait "$updating"
}
# What an installation into a folder of its own has in its environment.
set_words() { # FOLDER
    mkdir -p "$1/lib" && cp "$prefix"/lib/*.a "$1/lib" &&
        words=(env libdir="$1/lib" bindir="$1/bin" mandir="$1/man" sysconfdir="$1/etc" includedir="$prefix/include")
}
# The file that OPENSSL_CONF names is included, and again at an update, where OPENSSL_CONF names ours, or nothing.
present_settings_stay() (
    local at=$work/present words
    unset OPENSSL_MODULES
    file present 'openssl_conf = i' '[i]' 'ssl_conf = tls' '[tls]' 'system_default = d' '[d]' 'MinProtocol = TLSv1.3'
    set_words "$at" || return
    for now in "OPENSSL_CONF=$work/present.cnf" "OPENSSL_CONF=$at/etc/fotsgure-openssl.cnf" OPENSSL_CONF=; do
        ends_with 0 "fotsgure-openssl.cnf includes $work/present.cnf." "${words[@]}" "$now" "$here/install" "$prefix" || return
    done
    [[ $(OPENSSL_CONF=$at/etc/fotsgure-openssl.cnf least_version) == TLSv1_3 ]] &&
        ends_with 1 'by SYSTEM_CNF' "${words[@]}" OPENSSL_CONF="$work/nowhere" "$here/install" "$prefix"
)
# Other users can read what is installed under root's umask, and what can't be built or would change a setting changes nothing.
installed() (
    local at=$work/installed words
    unset OPENSSL_MODULES
    file theirs 'openssl_conf = i' '[i]' 'providers = p' '[p]' 'default = d' 'legacy = l' '[d]' 'activate = 1' '[l]' 'activate = 1'
    set_words "$at" && words+=(SYSTEM_CNF="$work/theirs.cnf") || return
    bash -c 'umask 077; "$@"' - "${words[@]}" "$here/install" "$prefix" || return
    [[ -z $(find "$at" ! -perm -go=r) && -z $(find "$at" -type d ! -perm -go=x) ]] || { find "$at" -ls; return 1; }
    stay_there "$at" "${words[@]}" "$here/install" "$prefix" && (cd "$at" && find . -type f -exec sha256sum {} + > "$work/sums") || return
    ends_with 1 '' "${words[@]}" LDFLAGS=-lnowhere "$here/install" "$prefix" &&
        ends_with 1 'demands fips=yes' "${words[@]}" SYSTEM_CNF="$work/demanding.cnf" "$here/install" "$prefix" &&
        ends_with 1 'Programs find no hash' "${words[@]}" SYSTEM_CNF="$work/withheld.cnf" "$here/install" "$prefix" &&
        ends_with 1 "isn't there" "${words[@]}" SYSTEM_CNF="$work/nowhere" "$here/install" "$prefix" &&
        ends_with 1 'SYSTEM_CNF=none' "${words[@]}" DESTDIR=/ SYSTEM_CNF= "$here/install" "$prefix" &&
        (cd "$at" && sha256sum --quiet -c "$work/sums" && find . -type f | wc -l | grep -x "$(wc -l < "$work/sums")")
)
check_settings() {
    mkdir "$work/again"
    try 'fotsgure-openssl says which provider serves AES, and what is missing' says_which_provider
    try 'fotsgure-openssl gives the reason why nothing comes from the module' says_the_reason
    if [[ $(id -u) -eq 0 ]] && unshare -m true 2> /dev/null; then
        try 'fotsgure-openssl sees a mount with noexec' says_noexec
    else
        echo 'skipped: a mount with noexec (it needs root, and permission to mount)'
    fi
    try 'fotsgure-openssl says whether a process has loaded the module' says_of_a_process
    try 'the file of configuration keeps the settings of the system' settings_stay
    try 'where the system demands fips=yes, there is none' demands_stay
    try 'an installation keeps the settings of the file that OPENSSL_CONF names' present_settings_stay
    try 'an installation can be read by all; one that fails changes nothing' installed
}
