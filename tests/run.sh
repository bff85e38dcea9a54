#!/bin/sh
# Runs the worked day of the README, the examples of docs/formats.md, the table of tests/rows,
# stores that are changed by hand, and a small lot of dies, and compares what is printed with what
# is expected. The program is the built one, or that of the first word.
top=$(CDPATH='' cd -- "$(dirname -- "$0")/.." && pwd) || exit 1
program=${1:-$top/crates/scandesk/out/scandesk}
# Without words the program says that it doesn't understand; where it isn't there, it is built
# first.
[ -x "$program" ] || "$top/scandesk" >/dev/null
work=$(mktemp -d) || exit 1
trap 'rm -rf "$work"' EXIT
runs=0
wrong=0

# expect STATUS FILE WORD..: the program ends with the status within a minute, and prints the file.
expect() {
    status=$1
    expected=$2
    shift 2
    runs=$((runs + 1))
    timeout 60 "$program" "$@" >"$work/printed"
    ended=$?
    if [ "$ended" -ne "$status" ] || ! cmp -s "$work/printed" "$expected"; then
        wrong=$((wrong + 1))
        echo "scandesk $*: ended with $ended, $status was due; printed (<) and due (>):"
        diff "$work/printed" "$expected" | head -n 10
    fi
}

# The same for one line.
expect_line() {
    status=$1
    printf '%s\n' "$2" >"$work/line"
    shift 2
    expect "$status" "$work/line" "$@"
}

the_day() {
    cd "$top/examples/day" || exit 1
    expect 0 check.expected check block.bench block.scan block.pat block.csv
    expect 0 pack.expected pack block.bench block.scan block.pat block.csv
    expect 0 report.expected diagnose block wafer3.17 block.bench block.scan block.pat block.csv first.log second.log
    expect 0 report.expected diagnose block wafer3.17 block.bench block.scan block.pat block.csv second.log first.log second.log
    expect 0 loc.expected loc block wafer3.18 block.bench block.scan launch.pat launch.log
    expect 0 compact.expected compact block wafer3.19 block.bench short.scan short.pat block.csv short.chan short.log
    expect 0 demo.expected demo 7 2
    expect 0 demo.expected demo 7 2
    # 23,000 nets and 512 patterns, for which plain simulation would take hours: it is cut off.
    expect 0 demo-large.expected demo 7 200
    expect 0 demo-large.expected demo 7 200
}

# Logs of more than 256 KiB, which are read while the design is simulated where there are several processors: those of the day,
# longer by comments, and one whose last line breaks a rule.
the_long_logs() {
    mkdir "$work/long"
    cd "$work/long" || exit 1
    cp "$top"/examples/day/* .
    for log in first second; do
        yes '# behind the fails' | head -n 16384 >>$log.log
    done
    expect 0 report.expected diagnose block wafer3.17 block.bench block.scan block.pat block.csv first.log second.log
    expect 0 report.expected diagnose block wafer3.17 block.bench block.scan block.pat block.csv second.log first.log second.log
    echo fail >>second.log
    lines=$(wc -l <second.log)
    expect_line 3 "second.log line $lines rule 62" diagnose block wafer3.17 block.bench block.scan block.pat block.csv first.log second.log
    expect_line 3 "second.log line $lines rule 62" diagnose block wafer3.17 block.bench block.scan block.pat block.csv second.log first.log
}

# The files of s27 with one of them replaced by the example of a rule.
the_files() {
    cp "$top"/examples/s27/* .
    case $1 in
        netlist) mv example s27.bench ;;
        scan) mv example s27.scan ;;
        patterns) mv example s27.pat ;;
        neighbours) mv example none.csv ;;
    esac
}

# expect_rule KIND RULE LINE: the file `example` breaks the rule at the line.
expect_rule() {
    the_files "$1"
    case $1 in
        netlist) name=s27.bench ;;
        scan) name=s27.scan ;;
        patterns) name=s27.pat ;;
        neighbours) name=none.csv ;;
        # A bundle is the body of a request.
        bundle) return ;;
        log)
            expect_line 3 "example line $3 rule $2" diagnose s27 D1 s27.bench s27.scan s27.pat none.csv example
            return
            ;;
        launches)
            expect_line 3 "example line $3 rule $2" loc s27 D1 s27.bench s27.scan example gone
            return
            ;;
        channels)
            expect_line 3 "example line $3 rule $2" compact s27 D1 s27.bench s27.scan s27.pat none.csv example gone
            return
            ;;
        compactlog)
            echo 'CHANNEL x c0' >one.chan
            expect_line 3 "example line $3 rule $2" compact s27 D1 s27.bench s27.scan s27.pat none.csv one.chan example
            return
            ;;
    esac
    expect_line 3 "$name line $3 rule $2" check s27.bench s27.scan s27.pat none.csv
}

# The examples that are told in words.
told_example() {
    case $1 in
        5) printf 'INPUT(%065d)\n' 0 ;;
        9) awk 'BEGIN { for (i = 0; i < 65537; i++) print "INPUT(n" i ")" }' ;;
        15) awk 'BEGIN { for (i = 0; i < 257; i++) print "CHAIN c" i " q" i }' ;;
        25) awk 'BEGIN { for (i = 0; i < 4097; i++) print "SHIFT 101" }' ;;
        104) awk 'BEGIN { for (i = 0; i < 257; i++) print "CHANNEL x" i " c0" }' ;;
        105) awk 'BEGIN { for (i = 0; i < 256; i++) print "CHANNEL x" i " c" }' ;;
        34) awk 'BEGIN { print "net_a,net_b"; for (i = 0; n < 65537; i++) for (j = 0; j < i && n < 65537; j++) { print "n" i ",n" j; n++ } }' ;;
    esac
}

# Their netlists, where s27 is too small.
told_netlist() {
    case $1 in
        15) awk 'BEGIN { print "INPUT(a)"; for (i = 0; i < 257; i++) print "q" i " = DFF(a)" }' ;;
        34) awk 'BEGIN { for (i = 0; i < 363; i++) print "INPUT(n" i ")" }' ;;
        105) awk 'BEGIN { print "INPUT(a)"; for (i = 0; i < 513; i++) print "q" i " = DFF(a)" }' ;;
    esac
}

expect_told_rule() {
    told_example "$2" >example
    case $2 in
        15)
            told_netlist 15 >q.bench
            expect_line 3 "example line $3 rule 15" check q.bench example s27.pat none.csv
            ;;
        34)
            told_netlist 34 >n.bench
            : >empty
            { printf 'CAPTURE '; printf '%0363d\n' 0; } >n.pat
            expect_line 3 "example line $3 rule 34" check n.bench empty n.pat example
            ;;
        105)
            told_netlist 105 >q.bench
            awk 'BEGIN { printf "CHAIN c"; for (i = 0; i < 513; i++) printf " q" i; print "" }' >q.scan
            { printf 'SHIFT '; printf '%0513d\n' 0; } >q.pat
            expect_line 3 "example line $3 rule 105" compact q D1 q.bench q.scan q.pat none.csv example gone
            ;;
        *) expect_rule "$@" ;;
    esac
}

# The tables of rules: a row has the rule, where it is broken, an example and its line. Printed as
# KIND|RULE|LINE|EXAMPLE.
rules() {
    awk '
        /^## / { kind = ""; split("Netlist:netlist Scan:scan Pattern:patterns Two-frame:launches Neighbour:neighbours Channels:channels Fail:log Log:compactlog Bundle:bundle", kinds, " ")
            for (i in kinds) { split(kinds[i], k, ":"); if ($2 ~ "^" k[1]) kind = k[2] } }
        kind != "" && /^\| [0-9]+ \|/ { split($0, cell, " *[|] *"); print kind "|" cell[2] "|" cell[5] "|" cell[4] }
    ' "$top/docs/formats.md"
}

the_rules() {
    cd "$work" || exit 1
    rules >"$work/rules"
    while IFS='|' read -r kind rule line example; do
        the_files none
        case $example in
            '`'*)
                text=${example#?}
                printf '%b' "${text%?}" >example
                expect_rule "$kind" "$rule" "$line"
                ;;
            *) expect_told_rule "$kind" "$rule" "$line" ;;
        esac
    done <"$work/rules"
}

# The answers of the program: a row has the status, its cause, the line, and an example with what it
# writes.
answers() {
    awk '/^## / { on = $0 ~ /^## The program/ } on && /^\| [0-9]+ \|/ { split($0, cell, " *[|] *"); print cell[2] "|" cell[5] "|" cell[6] }' "$top/docs/formats.md"
}

the_answers() {
    cd "$work" || exit 1
    the_files none
    head -c 16777217 /dev/zero | tr '\0' '\n' >long.bench
    answers >"$work/answers"
    while IFS='|' read -r status words line; do
        case $words in
            '`'*)
                words=$(printf '%s' "$words" | tr -d '\140')
                # The words have no blanks.
                # shellcheck disable=SC2086
                expect_line "$status" "$(printf '%s' "$line" | tr -d '\140')" $words
                ;;
        esac
    done <"$work/answers"
}

# The files of the table in tests/rows, and those of the stored run.
the_files_of_the_rows() {
    cp "$top"/examples/s27/* .
    cp "$top"/crates/scandesk/data/* .
    cp "$top"/tests/rows/* .
    cp "$top/crates/scandesk/stdout" a.expected
    cp a.log copy.log
    cp c17.bench help
    cp none.scan a=b
    cp one.pat a-b
    cp none.csv pack
}

# the_row STATUS WRITTEN WORD..: what is written is one line, or the file behind `<`.
the_row() {
    due=$1
    written=$2
    shift 2
    case $written in
        '<'*) expect "$due" "${written#<}" "$@" ;;
        *) expect_line "$due" "$written" "$@" ;;
    esac
}

# The rows of that table, whose words stand as for a shell.
the_rows() {
    mkdir "$work/rows"
    cd "$work/rows" || exit 1
    the_files_of_the_rows
    grep -v -e '^#' -e '^$' table >rows
    while IFS='|' read -r status words written; do
        eval "the_row '$status' '$written' $words"
    done <rows
}

# The texts that are refused, in the same folder.
the_texts() {
    cd "$work/rows" || exit 1
    grep -v -e '^#' -e '^$' texts >refused
    while IFS='|' read -r status file text words written; do
        printf '%b' "$text" >"$file"
        # The words have no blanks.
        # shellcheck disable=SC2086
        expect_line "$status" "$written" $words
    done <refused
}

# fronts FILE FRONT WORD..: for each front of a file, in the file FRONT, the status and what is
# written, in one line.
fronts() {
    file=$1
    front=$2
    shift 2
    for size in $(seq 0 "$(wc -c <"$file")"); do
        head -c "$size" "$file" >"$front"
        printed=$("$program" "$@")
        printf '%s %s\n' $? "$(printf '%s' "$printed" | tr '\n' ' ')"
    done
}

# A netlist and a log that were cut off anywhere; fronts that are read the same are counted.
the_fronts() {
    cd "$work/rows" || exit 1
    runs=$((runs + 1))
    {
        fronts c17.bench front.bench check front.bench none.scan shift.pat none.csv
        fronts a.log front.log diagnose c17 D1 c17.bench none.scan one.pat none.csv front.log
    } | uniq -c | sed 's/^ *//' >fronts.printed
    cmp -s fronts.printed fronts.expected && return
    wrong=$((wrong + 1))
    echo 'fronts of files: printed (<) and due (>):'
    diff fronts.printed fronts.expected | head -n 10
}

# The bodies of the requests of docs/formats.md.
the_bodies() {
    "$program" pack s27.bench s27.scan s27.pat none.csv >s27.bundle
    { cat s27.bundle; echo net_a,net_b; } >other.bundle
    printf 'FAILLOG 1\ndie D1\ndesign s27\ntested 0 0\nfail 0 out G17\nend\n' >one.log
    printf 'FAILLOG 1\ndie D1\ndesign s27\ntested 0 0\nend\n' >passes.log
    right=a18da399681001adde28d6ab4468d9b58dc884b4d0de8bad094a9173161b11db
    printf '{"revision": 1, "signer": "ann", "digest": "%s"}' $right >right.json
    printf '{"revision": 2, "signer": "ann", "digest": "%s"}' $right >later.json
    printf '{"revision": 1, "signer": "ann", "digest": "%s"}' 44eba18990ccfad95d7b74d7082d2b505e26f0deb9cbb2bf3c79cf1d020483e0 >wrong.json
    : >empty
}

# The requests, with their replies.
the_requests() {
    mkdir "$work/bodies"
    cd "$work/bodies" || exit 1
    the_files none
    the_bodies
    runs=$((runs + 1))
    "$top/tests/requests.py" "$program" . || wrong=$((wrong + 1))
}

# Whole connections, at once and byte by byte.
the_sessions() {
    runs=$((runs + 1))
    "$top/tests/sessions.py" "$program" || wrong=$((wrong + 1))
}

# What each fault of two designs predicts, and the report over it.
the_predicted() {
    cd "$work/rows" || exit 1
    runs=$((runs + 1))
    "$top/tests/predicted.py" "$program" || wrong=$((wrong + 1))
}

# The patterns that single faults explain, and the faults of each.
the_explained() {
    cd "$work/rows" || exit 1
    runs=$((runs + 1))
    "$top/tests/explained.py" "$program" || wrong=$((wrong + 1))
}

# Stores that are changed by hand between two runs.
the_stores() {
    cd "$work/bodies" || exit 1
    runs=$((runs + 1))
    "$top/tests/stores.py" "$program" . || wrong=$((wrong + 1))
}

make_the_lot() {
    "$top/examples/lot/make.py" "$program" "$work/lot" 12 4 || return 1
    cd "$work/lot" || return 1
    "$top/examples/lot/diagnose.sh" "$program" || return 1
    cat reports/* | sha256sum >reports.sha256
    "$top/examples/lot/pareto.sh" >/dev/null 2>&1
}

# A small lot of dies: their reports are those of an independent model, and so is their Pareto, in
# which the three planted causes stand first.
the_lot() {
    if ! command -v sqlite3 >/dev/null; then
        echo 'skipped: the Pareto of a lot, since sqlite3 is not installed'
        return
    fi
    runs=$((runs + 1))
    if ! make_the_lot || ! cmp -s reports.sha256 "$top/tests/lot/small.sha256" ||
        ! cmp -s pareto.tsv "$top/tests/lot/small.expected"; then
        wrong=$((wrong + 1))
        echo "the reports of a lot, or their Pareto, aren't those of the model"
    fi
}

# Two connections that stay open, each with a worker of its own.
the_workers() {
    cd "$work/bodies" || exit 1
    runs=$((runs + 1))
    "$top/tests/workers.py" "$program" . || wrong=$((wrong + 1))
}

# Files that take so many bytes and no more, for each number of bytes.
the_cut_output() {
    cd "$work/rows" || exit 1
    runs=$((runs + 1))
    "$top/tests/cut_output.py" "$program" || wrong=$((wrong + 1))
}

# What can't be written ends with status 6.
the_full_device() {
    [ -w /dev/full ] || return
    runs=$((runs + 1))
    "$program" demo 7 0 >/dev/full
    [ $? -eq 6 ] || { wrong=$((wrong + 1)); echo 'no status 6 at a full device'; }
}

# A large file ends with status 8 where the program has 16 MB of memory in all.
the_little_memory() {
    cd "$work" || exit 1
    head -c 16000000 long.bench >large.bench
    runs=$((runs + 1))
    printed=$(ulimit -v 16000 && "$program" check large.bench s27.scan s27.pat none.csv)
    [ $? -eq 8 ] && [ "$printed" = memory ] || { wrong=$((wrong + 1)); echo 'no status 8 with little memory'; }
}

# The day over HTTP.
the_day_over_http() {
    runs=$((runs + 1))
    "$top/tests/http.sh" "$program" || wrong=$((wrong + 1))
}

# The commands of docs/formats.md are those of the program's table.
the_commands() {
    runs=$((runs + 1))
    "$top/tests/commands.sh" || wrong=$((wrong + 1))
}

# The sentences of the page are those of docs/formats.md.
the_sentences() {
    runs=$((runs + 1))
    "$top/tests/sentences.sh" || wrong=$((wrong + 1))
}

# The day in a browser, where there is one.
the_day_in_a_browser() {
    runs=$((runs + 1))
    "$top/tests/page.py" "$program" || wrong=$((wrong + 1))
}

the_day
the_long_logs
the_day_over_http
the_commands
the_sentences
the_day_in_a_browser
the_rules
the_answers
the_rows
the_texts
the_fronts
the_requests
the_sessions
the_predicted
the_explained
the_stores
the_lot
the_workers
the_little_memory
the_cut_output
the_full_device
echo "$runs examples, $wrong wrong"
[ "$wrong" -eq 0 ]
