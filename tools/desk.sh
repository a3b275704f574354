# What the scripts ./readout, ./cutdown, ./boxreport and ./drive share: read by each of them, which sets `usage` first. Bash.
# Status: 0 for what was asked for, 1 where a card was refused, 2 for what could not be read, found or written.
set -u
me=$(basename "$0")
root=$(cd "$(dirname "$0")" && pwd -P) || exit 2

say() { printf '%s: %s\n' "$me" "$1" >&2; }

fail() {
    say "$1"
    exit 2
}

# -h and --help print the usage; any other option is unknown. -- ends the options.
options() { # WORD..
    case ${1-} in
    -h | --help)
        printf '%s\n' "$usage" || exit 2
        exit 0
        ;;
    --) return 1 ;;
    -?*) fail "unknown option $1 (./$me --help says what there is)" ;;
    esac
    return 0
}

# Says why a file cannot be read as a card; answers whether it can. `-` is standard input.
readable() { # FILE
    if [ "$1" = - ]; then
        { : 3<&0; } 2>/dev/null || { say 'standard input: it is closed'; return 1; }
    elif [ ! -e "$1" ]; then say "$1: no such file"; return 1
    elif [ -d "$1" ]; then say "$1: a folder, not a file"; return 1
    elif [ ! -r "$1" ]; then say "$1: no permission to read it"; return 1
    fi
}

# The crates that a program builds on, itself among them, by crates.txt.
crates_of() { # PROGRAM
    awk -v want="$1" '
        { sub(/#.*/, ""); i = index($0, ":"); if (i) needs[substr($0, 1, i - 1)] = substr($0, i + 1) }
        function visit(n,   parts, k, c) { if (!(n in needs) || seen[n]++) return; print n; c = split(needs[n], parts, " "); for (k = 1; k <= c; k++) visit(parts[k]) }
        END { visit(want) }' "$root/crates.txt"
}

# Whether the program is there and none of the sources that it comes from is newer.
up_to_date() { # PROGRAM
    [ -x "$root/target/bin/$1" ] || return 1
    local folders
    folders=$(crates_of "$1" | sed "s|^|$root/crates/|")
    # shellcheck disable=SC2086
    [ -z "$(find $folders -name out -prune -o \( -name '*.rt' -o -name '*.antt' \) -newer "$root/target/bin/$1" -print -quit 2>/dev/null)" ]
}

# How many crates the build has proved so far, by its text. Those that an earlier run proved are not told there.
so_far() { grep -c '^logic=proved' "$1" 2>/dev/null; }

# Proves and builds the program where that is due: it is run once with no input, which is how it is built, and kept. The prover's text goes to a file; a line
# says how far it has come.
built() { # PROGRAM
    up_to_date "$1" && return
    command -v rt >/dev/null || fail 'the program is not built yet, and rt, which proves and builds it, is not on the path'
    local text=$root/target/build-$1.txt all building done last=
    all=$(crates_of "$1" | wc -l)
    mkdir -p "$root/target/bin" && : >"$text" || fail "$text: cannot be written"
    say "the program is proved and built first, $all crates, which takes some minutes; the prover's text is in target/build-$1.txt"
    (cd "$root/crates/$1" && exec rt run </dev/null >"$text" 2>&1) &
    building=$!
    while kill -0 "$building" 2>/dev/null; do
        done=$(so_far "$text")
        if [ "$done" != "$last" ]; then
            if [ -t 2 ]; then printf '\r%s: %d of %d crates' "$me" "$done" "$all" >&2; else say "$done of $all crates"; fi
            last=$done
        fi
        sleep 1
    done
    [ ! -t 2 ] || printf '\n' >&2
    wait "$building" || fail "the program could not be built: target/build-$1.txt says why"
    cp "$root/crates/$1/out/$1" "$root/target/bin/$1" || fail "target/bin/$1: cannot be written"
}

# Writes a text to standard output, or says why it cannot.
shown() { # TEXT
    local error='it is closed'
    { error=$({ printf '%s\n' "$1" >&3; } 2>&1); } 2>/dev/null 3>&1 || fail "standard output: ${error##*: }"
}
