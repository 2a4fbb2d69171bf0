# What ./install and .ci/run have in common: they source this file, and define `fail` and `may_install`.

# The memory for proofs, swap included, in GB.
memory() {
    awk -v group="$(cat /sys/fs/cgroup/memory.max 2>/dev/null || true)" -v space="$(ulimit -v)" '
        /^(MemTotal|SwapTotal):/ { all += $2 * 1024 }
        END {
            if (group + 0 && group + 0 < all) all = group
            if (space + 0 && space * 1024 < all) all = space * 1024
            printf "%.0f\n", all / 1e9
        }' /proc/meminfo
}

# How many crates are proved at a time: one for each processor and each five gigabytes, and at least one.
lanes() {
    local cores most
    cores=$(nproc) most=$(($(memory) / 5))
    most=$((cores < most ? cores : most))
    printf '%d' $((most > 0 ? most : 1))
}

# What proofs find here, and about how long those take that take so many minutes one after the other.
told_machine() {
    local cores
    cores=$(nproc)
    printf '%d processor%s, %d GB of memory: about %d minutes' "$cores" "$([ "$cores" = 1 ] || echo s)" "$(memory)" $(($1 / $(lanes)))
}

# What is said where memory is short; nothing where it isn't.
lack_of_memory() { [ "$(memory)" -ge 7 ] || printf '%s GB of memory: a proof takes up to 7 GB. Add swap, or use another machine' "$(memory)"; }

# Refuses to go on without the kit.
look_for_rt() {
    command -v rt >/dev/null || fail "rt is missing, by which $1 would be built: put the Rattle kit's command on the PATH" \
        "(README.md says which kit)"
}

# Installs packages by apt-get, if root calls this and isn't against it; succeeds if all are there then.
install_packages() {
    [ "${may_install-}" = yes ] && [ "$(id -u)" = 0 ] && command -v apt-get >/dev/null || return 1
    printf 'Installing by apt-get: %s\n' "$*"
    { apt-get -qq -o Acquire::Retries=0 update &&
        DEBIAN_FRONTEND=noninteractive apt-get -qq -o Acquire::Retries=1 -y install --no-install-recommends "$@"; } >/dev/null 2>&1 && return
    echo "apt-get can't install them; is there a network?"
    return 1
}

since() { printf '%d:%02d' $((($(date +%s) - $1) / 60)) $((($(date +%s) - $1) % 60)); }

# Reads the output of rt, and reports each crate when it is proved. Lines that begin with a third word are handed on.
tell_proved() {
    local all=$1 begun=$2 number=0 line
    while IFS= read -r line; do
        [ $# -lt 3 ] || [[ $line != "$3"* ]] || printf '%s\n' "$line"
        [[ $line =~ ^rt:\ ([a-z0-9_]+)\ (proved$|is\ kept:) ]] || continue
        number=$((number + 1))
        printf '%3d of %d  %-18s %3d left, %s so far\n' "$number" "$all" "${BASH_REMATCH[1]}" $((all - number)) "$(since "$begun")"
    done
}
