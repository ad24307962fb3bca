#!/usr/bin/env bash
# usage: ends.sh WORKER    the built worker at its edge: words, files, pipes, and an output that cannot be written
#
# Each case has its expected exit status and, where all that is said can be stated, the expected lines.
set -u
worker=$(realpath "$1")
folder=$(mktemp -d)
trap 'rm -rf "$folder"' EXIT
cd "$folder" || exit 2
failed=0

# expect NAME STATUS GOT-STATUS [EXPECTED-FILE GOT-FILE]
expect() {
    local name=$1 status=$2 got=$3
    if [ "$status" -ne "$got" ]; then
        echo "ends: $name: exit status $got, and not $status"
        failed=1
    elif [ $# -eq 5 ] && ! cmp -s "$4" "$5"; then
        echo "ends: $name: other lines were said"
        diff "$4" "$5" | head -n 5
        failed=1
    fi
}

# run NAME STATUS EXPECTED-FILE WORD..    runs the worker on the words
run() {
    local name=$1 status=$2 lines=$3
    shift 3
    timeout 60 "$worker" "$@" >said
    expect "$name" "$status" $? "$lines" said
}

# records N: N records of the stream `a`, and behind them a state with their number
records() {
    awk -v n="$1" 'BEGIN {
        for (i = 1; i <= n; i++) print "{\"type\":\"RECORD\",\"record\":{\"stream\":\"a\",\"data\":{\"id\":" i "},\"emitted_at\":1}}"
        print "{\"type\":\"STATE\",\"state\":{\"type\":\"STREAM\",\"stream\":{\"stream_descriptor\":{\"name\":\"a\"}},\"sourceStats\":{\"recordCount\":" n "}}}"
    }'
}

# said_of N: what the worker says of them
said_of() {
    awk -v n="$1" 'BEGIN {
        print "saved {\"type\":\"STREAM\",\"stream\":{\"stream_descriptor\":{\"name\":\"a\"}},\"sourceStats\":{\"recordCount\":" n "}}"
        print "attempt 1: 0 Ok"
        print "table a rows " n
        for (i = 1; i <= n; i++) print "row {\"id\":" i "}"
        print "status 0 Ok"
    }'
}

printf '%s' '{"streams":[{"stream":{"name":"a"},"sync_mode":"incremental","destination_sync_mode":"append"}]}' >catalog
printf '%s\n' 'usage: airbyte_worker local --messages F --catalog F' 'status 2 Usage' >usage
printf '%s\n' 'status 13 FileFault' >unread
mkdir directory

records 2 >two
said_of 2 >two.said
run 'two records' 0 two.said local --messages two --catalog catalog
run 'the options the other way round' 0 two.said local --catalog catalog --messages two

# words of another form
run 'no words' 2 usage
run 'another command' 2 usage sync --messages two --catalog catalog
run 'an option without a value' 2 usage local --messages two --catalog
run 'a value with a hyphen' 2 usage local --messages two --catalog -c
run 'a word too many' 2 usage local --messages two --catalog catalog two
run 'an option with =' 2 usage local --messages=two --catalog=catalog
run 'a word that is not UTF-8' 2 usage local --messages $'\xff' --catalog catalog

# texts that cannot be read
run 'missing messages' 13 unread local --messages none --catalog catalog
run 'a missing catalog' 13 unread local --messages two --catalog none
run 'a folder of messages' 13 unread local --messages directory --catalog catalog
run 'a folder as the catalog' 13 unread local --messages two --catalog directory

# a line that is not taken, and a catalog of another form
printf '%s\n' 'attempt 1: 60 Unbuilt line 1' 'status 60 Unbuilt line 1' >unbuilt
printf '%s\n' '{"type":"RECORD","record":{"stream":"zz","data":{},"emitted_at":1}}' >other
run 'a record of another stream' 60 unbuilt local --messages other --catalog catalog
printf '%s\n' 'status 60 Unbuilt line 0' >refused
run 'a catalog of another form' 60 refused local --messages two --catalog two
run 'a catalog of another form, and missing messages' 60 refused local --messages none --catalog two

# files of several pieces, read whole: above 64 KiB, and above 1 MB
records 2000 >kilobytes
said_of 2000 >kilobytes.said
run 'a file above 64 KiB' 0 kilobytes.said local --messages kilobytes --catalog catalog
records 30000 >megabytes
said_of 30000 >megabytes.said
run 'a file above 1 MB' 0 megabytes.said local --messages megabytes --catalog catalog
[ "$(wc -c <kilobytes)" -gt 65536 ] && [ "$(wc -c <megabytes)" -gt 1000000 ] || { echo 'ends: the files are too small'; failed=1; }

# a file whose last line has no newline, and one that is empty
head -c -1 two >torn
run 'a last line without a newline' 0 two.said local --messages torn --catalog catalog
: >empty
printf '%s\n' 'attempt 1: 0 Ok' 'table a rows 0' 'status 0 Ok' >empty.said
run 'an empty file' 0 empty.said local --messages empty --catalog catalog

# input from a pipe
cat megabytes | "$worker" local --messages /dev/stdin --catalog catalog >said
expect 'messages from standard input' 0 $? megabytes.said said
mkfifo pipe
cat two >pipe &
writer=$!
run 'messages from a named pipe' 0 two.said local --messages pipe --catalog catalog
kill "$writer" 2>/dev/null
wait "$writer" 2>/dev/null

# output that cannot be written
if [ -e /dev/full ]; then
    "$worker" local --messages two --catalog catalog >/dev/full
    expect 'a full device, at the end' 42 $?
    "$worker" local --messages megabytes --catalog catalog >/dev/full
    expect 'a full device, in the middle' 42 $?
    "$worker" >/dev/full
    expect 'the usage on a full device' 42 $?
    "$worker" local --messages none --catalog catalog >/dev/full
    expect 'a missing file on a full device' 42 $?
fi
"$worker" local --messages two --catalog catalog >&-
expect 'a closed output' 42 $?

# a reader that goes away after one line: what it got is the beginning, and the worker answers that it cannot say more
"$worker" local --messages megabytes --catalog catalog | head -n 1 >first
expect 'a reader that goes away' 42 "${PIPESTATUS[0]}"
head -n 1 megabytes.said | cmp -s - first || { echo 'ends: a reader that goes away: it got another line'; failed=1; }

[ "$failed" -eq 0 ] && echo 'ends: words, files, pipes and outputs, as stated'
exit "$failed"
