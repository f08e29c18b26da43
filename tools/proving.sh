# shellcheck shell=bash
# Sourced by ./naszeptan and tools/archive, which have their crates proved by rt, and by their tests. The repository is $root.
# shellcheck disable=SC2154

# Says which crate is being proved, and how far that is: on a terminal in one line, else in one for each. rt goes through the crates in the
# order of `reached`, and tells each that it begins to prove in a line of its own; one that is unchanged has no line.
tell_crates() { # LOG WHO HEAD CRATE...
    local log=$1 who=$2 head=$2": $3\n" name form
    local -A place=()
    shift 3
    for name; do place[$name]=$((${#place[@]} + 1)); done
    form="$who: proving %d of %d: %s\n"
    [ ! -t 2 ] || form="\r\033[K$who: proving %d of %d: %s "
    while kill -0 $$ 2>/dev/null; do
        while IFS= read -r name; do
            [ -n "${place[$name]:-}" ] || continue
            # shellcheck disable=SC2059
            printf "$head$form" "${place[$name]}" $# "$name" >&2
            head=''
            place[$name]=''
        done < <(sed -n 's/^rt: chose --jobs [0-9]* for \([a-z0-9_]*\)$/\1/p' "$log" 2>/dev/null)
        sleep 0.5
    done
}

# Has rt do what VERB says in the folder of a crate, which proves it and what it reaches; tells the crates meanwhile. What rt says is in the
# log. The status is rt's; 126 where the log cannot be written.
proves() { # LOG WHO HEAD CRATE VERB
    local watcher status=0 crates
    read -r -a crates <<<"$(reached "$4" | cut -d: -f1 | tr '\n' ' ')"
    { mkdir -p "$root/target" && : >"$1"; } 2>/dev/null || return 126
    tell_crates "$1" "$2" "$3" "${crates[@]}" &
    watcher=$!
    # Without that, rt's lines come late.
    (cd "$root/crates/$4" && PYTHONUNBUFFERED=1 rt "$5") </dev/null >"$1" 2>&1 || status=$?
    { kill "$watcher" && wait "$watcher"; } 2>/dev/null || true
    [ ! -t 2 ] || printf '\r\033[K' >&2
    return "$status"
}

# The crates of this repository that one is made of, itself last, each with what it depends on: the lines of crates.txt that it reaches.
reached() { # CRATE
    awk -v top="$1" '
        { sub(/#.*/, ""); at = index($0, ":") }
        at { split(substr($0, 1, at - 1), head, " "); line[head[1]] = substr($0, at + 1) }
        function reach(name, words, n, k) {
            if (!(name in line) || name in seen) return
            seen[name]
            n = split(line[name], words, " ")
            for (k = 1; k <= n; k++) reach(words[k])
            print name ":" line[name]
        }
        END { reach(top) }' "$root/crates.txt"
}
