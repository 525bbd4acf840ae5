# shellcheck shell=sh
# Read by ./jaxn, ./test and harness/archive, from the top of the repository: how they run the kit's command rt, so that an interrupt
# ends the provers with it, and so that a long run says how far it is. POSIX sh; bash takes it too.

# alone COMMAND..: runs it in a process group of its own and gives its status. The kit starts its provers in the background, where
# Control-C does not reach them: so an interrupt is caught here, the whole group is ended, and then this script ends by the same signal.
alone() {
    group=''
    for signal in HUP INT QUIT TERM; do
        # shellcheck disable=SC2064 # the signal's name is meant now
        trap "interrupted $signal" "$signal"
    done
    if command -v setsid >/dev/null; then setsid "$@" </dev/null & else "$@" </dev/null & fi
    group=$!
    wait "$group"
    status=$?
    trap - HUP INT QUIT TERM
    return "$status"
}

interrupted() { # SIGNAL
    set +e
    trap '' HUP INT QUIT TERM
    [ -z "${teller:-}" ] || kill "$teller" 2>/dev/null
    if [ -n "$group" ]; then
        kill -s TERM -- "-$group" 2>/dev/null || kill -s TERM "$group" 2>/dev/null
        kill -s CONT -- "-$group" 2>/dev/null # one that is stopped ends only then
        wait "$group" 2>/dev/null
        tries=0
        while [ "$tries" -lt 30 ] && kill -s 0 -- "-$group" 2>/dev/null; do
            sleep 0.1
            tries=$((tries + 1))
        done
        kill -s KILL -- "-$group" 2>/dev/null
    fi
    trap - "$1"
    kill -s "$1" $$
}

# needed NAME: the crate, and those of the repository that it stands on.
needed() {
    NAME=$1 awk '
        { sub(/#.*/, ""); i = index($0, ":"); if (!i) next
          split(substr($0, 1, i - 1), word, " "); name = word[1]; deps[name] = substr($0, i + 1); order[++n] = name }
        function mark(c,    a, k, m) { if (c in marked || !(c in deps)) return; marked[c]; m = split(deps[c], a, " "); for (k = 1; k <= m; k++) mark(a[k]) }
        END { mark(ENVIRON["NAME"]); for (k = 1; k <= n; k++) if (order[k] in marked) print order[k] }' crates.txt
}

# tell WHO BEGAN CRATE..: one line for each change in what is proved, until target/log/WHO.over has rt's status. In target/log/WHO.log rt says where it
# begins with a crate, and its verdict on it; of a crate that was proved before it says nothing. Those that a crate stands on come before it.
tell() {
    who=$1 began=$2
    shift 2
    count=0 proved=' ' told=''
    while :; do
        over=''
        { read -r over <"target/log/$who.over"; } 2>/dev/null
        now=$(sed -n 's/^rt: chose --jobs [0-9]* for //p' "target/log/$who.log" 2>/dev/null | tail -n 1)
        done=" $(awk '/^crate / { sub(/:$/, "", $2); crate = $2 } /^logic=proved / { print crate }' "target/log/$who.log" 2>/dev/null | tr '\n' ' ')"
        [ -z "$now" ] || done="$done$(needed "$now" | sed '$d' | tr '\n' ' ')"
        new=''
        for crate; do
            [ "$over" != 0 ] || done="$done$crate "
            case $proved in *" $crate "*) continue ;; esac
            case $done in *" $crate "*) proved="$proved$crate " new="$new $crate" count=$((count + 1)) ;; esac
        done
        case $proved in *" $now "*) now='' ;; esac
        if [ -n "$new" ] || [ "$now" != "$told" ]; then
            took=$(($(date +%s) - began))
            printf '%s: %d:%02d  %d of %d proved%s%s\n' "$who" $((took / 60)) $((took % 60)) "$count" $# "${new:+:$new}" "${now:+; proving $now}" >&2
            told=$now
        fi
        [ -z "$over" ] && kill -s 0 $$ 2>/dev/null || return 0
        sleep 1
    done
}

# proves WHO TOP WORDS..: runs rt WORDS in crates/TOP, which proves that crate and those that it stands on, and gives its status. Standard error is
# told how far it is; all that rt says is kept in target/log/WHO.log, and where it fails the end of that is shown.
proves() {
    who=$1 top=$2
    shift 2
    said=target/log/$who.log
    rm -f "target/log/$who.over" "$said"
    # shellcheck disable=SC2046 # names of crates are words
    tell "$who" "$(date +%s)" $(needed "$top") 9>&- &
    teller=$!
    # shellcheck disable=SC2016 # the inner shell's words
    alone sh -c 'cd "$1" && shift && exec rt "$@"' sh "crates/$top" "$@" >"$said" 2>&1
    result=$?
    echo "$result" >"target/log/$who.over"
    wait "$teller"
    [ "$result" -eq 0 ] && return
    grep -v ': proved$' "$said" | tail -n 20 >&2
    echo "$who: rt $* ended with status $result in crates/$top; all that it said is in $said" >&2
    return "$result"
}

# locked WHO: waits until no other run of these scripts proves in this checkout. Status 1: nothing can be written here.
locked() {
    { mkdir -p target/log && true >>target/log/lock; } 2>/dev/null || return 1 # and not `:`, at whose failure sh would end
    exec 9>>target/log/lock
    command -v flock >/dev/null || return 0
    flock -n 9 && return 0
    echo "$1: another run is proving in this checkout; waiting for it" >&2
    flock 9
}
unlocked() { exec 9>&-; }
