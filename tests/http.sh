#!/bin/sh
# Runs the day of the README over HTTP: the program serves a port of 127.0.0.1 to the real `curl`, and each reply is compared
# byte for byte with tests/http. The program is the built one, or that of the first word.
top=$(CDPATH='' cd -- "$(dirname -- "$0")/.." && pwd) || exit 1
program=${1:-$top/crates/scandesk/out/scandesk}
[ -x "$program" ] || "$top/scandesk" >/dev/null
command -v curl >/dev/null || {
    echo 'no curl: the day over HTTP is left out'
    exit 0
}
work=$(mktemp -d) || exit 1
trap 'rm -rf "$work"' EXIT
wrong=0

# due NAME FILE: the file has the bytes of tests/http/NAME.
due() {
    cmp -s "$2" "$top/tests/http/$1" && return
    wrong=$((wrong + 1))
    echo "$1: printed (<) and due (>):"
    diff "$2" "$top/tests/http/$1" | head -n 10
}

# ask NAME WORD..: what curl prints of the reply, its head too, is tests/http/NAME. Each call is one connection.
ask() {
    name=$1
    shift
    curl --silent --show-error --include "$@" >"$work/printed" 2>&1
    due "$name" "$work/printed"
}

# The port is there as soon as the first line is written.
wait_for_the_first_line() {
    for _ in $(seq 100); do
        [ -s "$work/lines" ] && return
        sleep 0.2
    done
}

# serve WORKERS SESSIONS: so many workers serve so many connections each, over the store, at the first of these ports that
# nobody else has.
serve() {
    for port in ${PORT:-18490 18491 18492 18493}; do
        # The lines of the run before are gone before anybody looks for the first one.
        : >"$work/lines"
        timeout 900 "$program" serve "$port" "$1" "$2" "$work/store" >"$work/lines" &
        serving=$!
        wait_for_the_first_line
        grep -q '^serving' "$work/lines" && break
        wait "$serving"
    done
    desk=http://127.0.0.1:$port
    die=$desk/designs/block/dies/wafer3.17
}

# ended NAME: the program ends well, and what it wrote is tests/http/NAME.
ended() {
    wait "$serving" || {
        wrong=$((wrong + 1))
        echo 'serve ended with another status than 0'
    }
    sed "s/$port/PORT/" "$work/lines" >"$work/printed"
    due "$1" "$work/printed"
}

cd "$top/examples/day" || exit 1
serve 1 15
ask put-design --upload-file pack.expected "$desk/designs/block"
ask put-design-again --upload-file pack.expected "$desk/designs/block"
ask post-first-log --data-binary @first.log "$die/logs"
ask post-second-log --data-binary @second.log "$die/logs"
ask post-first-log-again --data-binary @first.log "$die/logs"
# curl asks first whether a body of more than 1 MiB may come.
head -c 1500000 /dev/zero | tr '\0' '\n' >"$work/large"
ask put-large --upload-file "$work/large" "$desk/designs/large"
curl --silent "$die/report" >"$work/printed"
cmp -s "$work/printed" report.expected || {
    wrong=$((wrong + 1))
    echo 'report: the bytes are not those of diagnose'
}
ask get-page "$die/reports/2/pages/1"
ask get-slat "$die/reports/2/slat"
ask get-slat-pattern "$die/reports/2/slat/49"
digest=$(sha256sum <report.expected)
sign="{\"revision\": 2, \"signer\": \"kim\", \"digest\": \"${digest%% *}\"}"
ask post-signoff --data-binary "$sign" "$die/signoffs"
ask get-signoff "$die/signoffs/1"
# Two requests over one connection.
ask get-twice "$die/signoffs/1" "$die/signoffs/1"
ask get-none "$desk/designs/none"
ask delete-design --request DELETE "$desk/designs/block"
ended lines
# Another run finds what the first has kept. Its two connections are those of two workers.
serve 2 1
ask post-first-log-again --data-binary @first.log "$die/logs"
ask get-signoff "$die/signoffs/1"
ended lines-again
echo "the day over HTTP: $wrong wrong"
[ "$wrong" -eq 0 ]
