#!/bin/sh
# Runs the program `survey` on a plate's text: the file named, or standard input. Only a proved program
# is built, so the first run proves all that it rests on, which takes some minutes. Standard error then
# tells what is being proved; what the prover says goes to target/survey.log.
set -eu
here=$(cd "$(dirname "$0")" && pwd)
log=$here/target/survey.log

fail() {
    echo "survey: $*" >&2
    exit 1
}

# How many of the crates that the program rests on are proved, by the log, and which comes now.
progress() {
    awk '
        FNR == NR {
            sub(/#.*/, "")
            sub(/:/, "")
            if (NF == 0) next
            name[++n] = $1
            uses[$1] = $0
            next
        }
        /^rt: chose --jobs [0-9]+ for / { now = $NF }
        /^logic=proved/ { done++; now = "" }
        END {
            wanted["survey"]
            for (i = n; i > 0; i--) {
                if (!(name[i] in wanted)) continue
                all++
                m = split(uses[name[i]], used, " ")
                for (k = 2; k <= m; k++) wanted[used[k]]
            }
            printf "%d of %d crates proved%s\n", done, all, now == "" ? "" : ", now " now
        }' "$here/crates.txt" "$log"
}

# Tells the progress as it changes. Where nothing is to be proved the check ends before this begins.
watch() {
    told=
    sleep 3 3>&-
    while kill -0 $$; do
        now=$(progress)
        [ "$now" = "$told" ] || echo "survey: $now" >&3
        told=$now
        sleep 1 3>&-
    done
}

[ $# -le 1 ] || fail "one file at most, not $#"
if [ $# -eq 1 ]; then
    # Before the minutes of a first run.
    if [ -d "$1" ] || [ ! -r "$1" ]; then fail "cannot read $1"; fi
fi
command -v rt >/dev/null || fail "rt, the Rattle toolchain, is needed (see README.md)"

mkdir -p "$here/target"
: >"$log"
watch 3>&2 </dev/null >/dev/null 2>&1 &
watcher=$!
trap 'kill $watcher 2>/dev/null' EXIT
# It is run once on nothing, which proves and builds it.
(cd "$here/crates/survey" && rt run) </dev/null >"$log" 2>&1 || {
    tail -n 5 "$log" >&2
    fail "the program is not proved, so it is not built; target/survey.log has all that was said"
}
kill $watcher
trap - EXIT
if [ $# -eq 1 ]; then
    exec "$here/crates/survey/out/survey" <"$1"
fi
exec "$here/crates/survey/out/survey"
