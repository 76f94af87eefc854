# What ./read and ./attachments share: their options, the build at the first use, and the exit status. docs/COMMANDS.md has both.
# The script that reads this has set `name`, `crate`, `root`, `sample` (arguments in the crate's folder that are accepted) and the
# function `usage`.
set -u

program=$root/crates/$crate/out/$crate
log=$root/target/$name.log

complain() { printf '%s: %s\n' "$name" "$1" >&2; }

say_version() {
    toolchain=$(rt version 2>/dev/null | head -n 1)
    printf '%s (Elbomavund) %s\nRattle toolchain: %s\n' "$name" "$(cat "$root/VERSION")" "${toolchain:-unknown}"
}

# Built, and no source of a crate is newer.
is_built() {
    [ -x "$program" ] || return 1
    newer=$(find "$root/crates" "$root/crates.txt" -name out -prune -o -newer "$program" -type f \
        \( -name '*.rt' -o -name '*.antt' -o -name crates.txt \) -print 2>/dev/null | head -n 1)
    [ -z "$newer" ]
}

# How many crates of the repository the program is made of, itself included.
count_crates() {
    NAME=$crate awk '
        { sub(/#.*/, ""); n = index($0, ":"); if (!n) next; deps[substr($0, 1, n - 1)] = substr($0, n + 1) }
        END { m = split(deps[ENVIRON["NAME"]], d, " "); for (k = 1; k <= m; k++) count += d[k] in deps; print count + 1 }
    ' "$root/crates.txt"
}

# Keeps the log, says which crate is proved, and ends with the status of rt, which is the last line.
follow() {
    proved=0
    crate_checked=$crate
    while IFS= read -r line; do
        case $line in
        'rt ended: '*) return "${line#rt ended: }" ;;
        'crate '*': modules '*)
            crate_checked=${line#crate }
            ;;
        'logic=proved '*)
            proved=$((proved + 1))
            complain "proved ${crate_checked%%:*} ($proved of $1)"
            ;;
        esac
        printf '%s\n' "$line" >>"$log"
    done
    return 1
}

build() {
    command -v rt >/dev/null 2>&1 || {
        complain "cannot build: the Rattle toolchain's command rt is not on the PATH"
        return 1
    }
    mkdir -p "$root/target" && : >"$log" || return 1
    complain "proving and building the reader, which takes some minutes at the first use; the log is $log"
    {
        (cd "$root/crates/$crate" && rt run -- $sample 2>&1 </dev/null)
        echo "rt ended: $?"
    } | follow "$(count_crates)" || {
        tail -n 20 "$log" >&2
        complain "not built: the lines above end $log"
        return 1
    }
    touch "$program"
}

# The program's status is ours where it is one of those that it returns.
run() {
    ended=0
    (exec "$program" "$@") || ended=$?
    case $ended in [0-4]) return "$ended" ;; esac
    complain "the program did not end well: status $ended"
    return "$ended"
}

# Descriptors that are closed are opened on nothing, so that no pipe of the shell's takes their place.
(: 5>&2) || exec 2>/dev/null
(: 5<&0) 2>/dev/null || exec 0>/dev/null
if ! (: 5>&1) 2>/dev/null; then
    complain "standard output is closed"
    exit 4
fi
case ${1-} in
-h | --help)
    usage || exit 4
    exit 0
    ;;
--version)
    say_version || exit 4
    exit 0
    ;;
--) shift ;;
-?*)
    complain "unknown option; $name --help says more"
    exit 3
    ;;
esac
is_built || build || exit 5
