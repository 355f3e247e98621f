# Inputs that cannot be read and outputs that cannot be written: status 2, the reason, and nothing that could be taken for an answer.

# unreadable NAME REASON COMMAND..: the command says this reason, and prints nothing
unreadable() {
    local name=$1 reason=$2
    shift 2
    expect "$name" 2 '' "dump: $reason" "$@"
}

unreadable 'missing file' "cannot read $work/missing: No such file or directory" ./dump "$work/missing"
unreadable 'a folder' "cannot read $work: Is a directory" ./dump "$work"
unreadable 'no name' 'cannot read : No such file or directory' ./dump ''
unreadable 'a failing read' 'cannot read /proc/self/mem: Input/output error' ./dump /proc/self/mem
unreadable 'closed input' 'standard input is closed' bash -c './dump <&-'
unreadable 'a folder as input' 'cannot read standard input: Is a directory' bash -c './dump <.'
unreadable 'a failing read of the input' 'cannot read standard input: Input/output error' bash -c 'exec </proc/self/mem; ./dump; exit'
unreadable 'an input open for writing only' 'cannot read standard input: Bad file descriptor' bash -c "./dump 0>$work/written"
# the memory of the calling shell, which must still be there, from 100 bytes before the end of its heap
reads_100='exec </proc/self/mem
end=$((0x$(sed -n "/\[heap\]/s/^[^-]*-\([^ ]*\) .*/\1/p" "/proc/$$/maps")))
dd bs=1 skip=$((end - 100)) count=0 status=none'
expect 'bytes before the failing read' 0 100 '' bash -c "$reads_100; head -c 36873 2>/dev/null | wc -c"
unreadable 'a read that fails midway' 'cannot read standard input: Input/output error' bash -c "$reads_100; ./dump; exit"
unreadable 'no temporary file' 'no temporary file: No such file or directory' env TMPDIR="$work/missing" ./dump examples/paper.fdo
mkdir "$work/stub" "$work/tmp"
printf '#!/bin/sh\nln -s /dev/full %s/copy && echo %s/copy\n' "$work" "$work" >"$work/stub/mktemp"
chmod +x "$work/stub/mktemp"
unreadable 'no room for a temporary file' 'no room for a copy of the input: No space left on device' \
    env PATH="$work/stub:$PATH" ./dump examples/paper.fdo

# unwritten NAME REASON REDIRECTION: a listing, a refusal and the help that go there are told not to be whole
unwritten() {
    for word in "$work/full" examples/byte-left.fdo --help; do
        expect "$1: $word" 2 '' "dump: $2" bash -c "./dump $word $3"
    done
}
unwritten 'full disk' 'standard output was not written whole: No space left on device' '>/dev/full'
unwritten 'closed output' 'standard output is closed' '>&-'
mkfifo "$work/pipe"
unwritten 'a reader that is gone' 'standard output was not written whole: Broken pipe' "7<>$work/pipe 8>$work/pipe 7>&- >&8"

paper=$(cat tests/dump/expected/paper.txt)
expect 'a file while the input is closed' 0 "$paper" '' bash -c './dump examples/paper.fdo <&-'
expect 'a listing while standard error is closed' 0 "$paper" '' bash -c './dump examples/paper.fdo 2>&-'
expect 'a refusal while standard error is closed' 1 'refused 16 5' '' bash -c './dump examples/byte-left.fdo 2>&-'
for word in examples/paper.fdo examples/byte-left.fdo /proc/self/mem; do
    TMPDIR=$work/tmp ./dump "$word" >"$work/printed" 2>&1
    expect "no temporary file left by $word" 0 '' '' ls -A "$work/tmp"
done
