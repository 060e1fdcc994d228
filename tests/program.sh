#!/usr/bin/env bash
# Tests document 01's program as it is run: on case.model and case.trace of its folder. `rt ci` leaves it built, and so
# does `rt run` in crates/cantivorex. The expected lines are documents 01's and 02's, written here by hand. Ends in
# 'N passed, M failed', and exits non-zero unless all passed.
set -u
. "$(dirname "${BASH_SOURCE[0]}")/checks.sh"
program=$root/crates/cantivorex/out/cantivorex

# ask: runs the program in the folder $tmp/case; what it printed is in out, its messages in err.
ask() {
    out=$(cd "$tmp/case" && "$program" 2>"$tmp/err"; printf .)
    out=${out%.}
    err=$(<"$tmp/err")
}

new_case() {
    rm -rf "$tmp/case"
    mkdir "$tmp/case"
}

# line_of MODEL TRACE: what the program prints for a pair.
line_of() {
    new_case
    cp "$1" "$tmp/case/case.model"
    cp "$2" "$tmp/case/case.trace"
    ask
    printf '%s' "$out"
}

test_samples() {
    same 'the desk model has 101 bytes' 101 "$(wc -c <"$desk" | tr -d ' ')"
    same 'trace B is as in document 01' 0100000006000000010000 "$(od -An -v -tx1 "$root/samples/B.trace" | tr -d ' \n')"
    local name line
    while IFS='|' read -r name line; do
        same "case $name" "$line" "$(line_of "$desk" "$root/samples/$name.trace")"
    done <<<"$desk_lines"
}

# Version 2: what holds only through a clause is neither removed nor stored, if it is persistent.
test_version_2() {
    local folder=$root/samples/mandate
    same 'a derived fact that is added again outlives its derivation' \
        'ATTACK step 2 fact none rounds 1 held 1 kind none round none' \
        "$(line_of "$folder/added.model" "$folder/revoked.trace")"
    same 'a derived fact that is persistent goes with its derivation' \
        'NOATTACK step 2 fact 1 rounds 2 held 0 kind positive round none' \
        "$(line_of "$folder/persistent.model" "$folder/revoked.trace")"
    { bytes 02; tail -c +2 "$folder/revoked.trace"; } >"$tmp/two.trace"
    same 'version 2 of a trace' "$(refused VERSION)" "$(line_of "$folder/persistent.model" "$tmp/two.trace")"
}

# fresh TRACE LINE: Table 2 with names.
fresh() {
    local folder=$root/samples/table2-fresh
    same "Table 2 with names, $1" "$2" "$(line_of "$folder/fresh.model" "$folder/$1.trace")"
}

# Version 3: a rule fires only if the names that it makes are unused.
test_version_3() {
    fresh a-moves-twice 'ATTACK step 2 fact none rounds 3 held 4 kind none round none'
    fresh a-moves 'NOATTACK step 1 fact 20 rounds 2 held 4 kind positive round none'
    fresh a-moves-back 'USED step 2 fact 2 rounds 3 held 4 kind none round none'
    fresh b-makes-it-too 'USED step 1 fact 2 rounds 2 held 4 kind none round none'
    fresh not-fresh 'USED step 0 fact 1 rounds 1 held 4 kind none round none'
    local folder=$root/samples/table2-fresh
    # The clause of version 2, 0004 0001 0000, is taken for three names.
    { bytes 03; tail -c +2 "$root/samples/mandate/persistent.model"; } >"$tmp/three.model"
    same 'version 3 without its section' "$(refused ORDER)" "$(line_of "$tmp/three.model" "$folder/a-moves.trace")"
}

# past TRACE LINE: the form, with formulas.
past() {
    local folder=$root/samples/past
    same "the form, $1" "$2" "$(line_of "$folder/form.model" "$folder/$1.trace")"
}

# Version 4: a goal may be a formula about the past. Version 5 there isn't.
test_version_4() {
    past signed-first 'ATTACK step 2 fact none rounds 2 held 2 kind none round none'
    past opened-first 'NOATTACK step 2 fact none rounds 1 held 2 kind none round none'
    past closed-again 'NOATTACK step 3 fact none rounds 1 held 1 kind none round none'
    past stayed-open 'NOATTACK step 2 fact none rounds 1 held 2 kind none round none'
    past closed-since 'ATTACK step 4 fact none rounds 3 held 2 kind none round none'
    local folder=$root/samples/past
    bytes '01 00000002 0003' >"$tmp/three.trace"
    same 'a goal beyond the formulas' "$(refused NAME)" "$(line_of "$folder/form.model" "$tmp/three.trace")"
    { bytes 04; tail -c +2 "$root/samples/table2-fresh/fresh.model"; } >"$tmp/four.model"
    same 'version 4 without its section' "$(refused SHAPE)" "$(line_of "$tmp/four.model" "$folder/opened-first.trace")"
    { bytes 05; tail -c +2 "$folder/form.model"; } >"$tmp/five.model"
    same 'version 5 of a model' "$(refused VERSION)" "$(line_of "$tmp/five.model" "$folder/opened-first.trace")"
}

# small NAME MODEL LINE: a model without rules, and a trace that asks for attack state 0 without steps.
small() {
    bytes "$2" >"$tmp/small.model"
    bytes 01 00000002 0000 >"$tmp/small.trace"
    same "case $1" "$3" "$(line_of "$tmp/small.model" "$tmp/small.trace")"
}

# Each model: version; F; initial facts; clauses; rules; attack states.
test_small_models() {
    small H '01 00000002 0000  00000000  00000000  00000000  00000006 0004 0000 0000' \
        'ATTACK step 0 fact none rounds 0 held 0 kind none round none'
    small I '01 00000002 0001  00000000  00000004 0002 0000  00000000  00000008 0006 0001 0000 0000' \
        'ATTACK step 0 fact none rounds 1 held 0 kind none round none'
    small J '01 00000002 0001  00000000  00000006 0004 0000 0000  00000000  00000008 0006 0001 0000 0000' \
        'NOATTACK step 0 fact 0 rounds 0 held 0 kind positive round none'
    small K '01 00000002 0002  00000000  0000000C 0004 0000 0001 0004 0001 0000  00000000
        00000008 0006 0001 0000 0000' 'NOATTACK step 0 fact 0 rounds 0 held 0 kind positive round none'
    small L '01 00000002 0004  00000002 0000  00000012 0004 0003 0002 0004 0002 0001 0004 0001 0000  00000000
        00000008 0006 0001 0003 0000' 'ATTACK step 0 fact none rounds 3 held 1 kind none round none'
    small 'L reversed' '01 00000002 0004  00000002 0000  00000012 0004 0001 0000 0004 0002 0001 0004 0003 0002
        00000000  00000008 0006 0001 0003 0000' 'ATTACK step 0 fact none rounds 3 held 1 kind none round none'
}

# The names that no other test prints; ROOM can't be reached here.
test_names() {
    small 'COUNT, F of 4,097' '01 00000002 1001' "$(refused COUNT)"
    small 'FACT, 1 where F is 1' '01 00000002 0001  00000002 0001' "$(refused FACT)"
    small 'ORDER, 1 before 0' '01 00000002 0002  00000004 0001 0000' "$(refused ORDER)"
    small 'BADNAME, 1,024 in use' '03 00000002 0000  00000000  00000000  00000002 0400' "$(refused BADNAME)"
    small 'BADNAME, 1,024 made by a rule' '03 00000002 0000  00000000  00000000  00000002 03FF  00000000
        0000000C 000A 0000 0000 0000 0001 0400' "$(refused BADNAME)"
    small 'FORMULA, `not` and nothing behind it' '04 00000002 0000  00000000  00000000  00000000  00000000  00000000
        00000000  00000004 0002 8000' "$(refused FORMULA)"
}

test_missing_files() {
    local line
    line=$(refused VERSION)$'\n'
    new_case
    ask
    same 'both files missing' "$line" "$out"
    cp "$desk" "$tmp/case/case.model"
    ask
    same 'the trace missing' "$line" "$out"
    new_case
    cp "$root/samples/A.trace" "$tmp/case/case.trace"
    ask
    same 'the model missing' "$line" "$out"
    same 'a missing file is no failure' '' "$err"
    cp "$desk" "$tmp/case/case.model"
    ask
    same 'the whole output has one line end' $'ATTACK step 1 fact none rounds 4 held 4 kind none round none\n' "$out"
}

# no_line LABEL FILE REASON: the program prints no line, and names the file and the reason.
no_line() {
    ask
    same "$1: no line" '' "$out"
    has "$1: the reason" "$2: $3" "$err"
}

# A file that can't be opened or read must not pass for a shorter one.
test_unread_files() {
    local file
    for file in case.model case.trace; do
        new_case
        cp "$desk" "$tmp/case/case.model"
        cp "$root/samples/A.trace" "$tmp/case/case.trace"
        rm "$tmp/case/$file"
        mkdir "$tmp/case/$file"
        no_line "a folder named $file" "$file" 'Is a directory'
        rmdir "$tmp/case/$file"
        ln -s "$file" "$tmp/case/$file"
        no_line "a link $file to itself" "$file" 'Too many levels of symbolic links'
        ln -sfn /proc/self/mem "$tmp/case/$file"
        no_line "a $file whose read fails" "$file" 'Input/output error'
    done
}

# oddly SETTING..: what the program says under the odd calls.
oddly() {
    (cd "$tmp/case" && env "$@" LD_PRELOAD="$tmp/odd.so" "$program" 2>&1)
}

# A read of the system's that moves few bytes at a time, and a read or a write that fails midway: the line is the
# same, or it is told.
test_odd_calls() {
    cat >"$tmp/odd.c" <<'CODE'
#include <errno.h>
#include <stdlib.h>
#include <sys/syscall.h>
#include <unistd.h>

/* Whether this is the call whose number the variable gives. */
static int fails(const char *variable, int call) {
    if (!getenv(variable) || call != atoi(getenv(variable)))
        return 0;
    errno = EIO;
    return 1;
}

ssize_t read(int fd, void *to, size_t most) {
    static int calls;
    return fails("FAIL_READ", ++calls) ? -1 : syscall(SYS_read, fd, to, most < 7 ? most : 7);
}

ssize_t write(int fd, const void *from, size_t size) {
    static int calls;
    int is_end = size == 1 && *(const char *)from == '\n';
    int is_failure = fd == 1 && (fails("FAIL_WRITE", ++calls) || fails("FAIL_END", is_end));
    return is_failure ? -1 : syscall(SYS_write, fd, from, size);
}
CODE
    gcc -shared -fPIC -o "$tmp/odd.so" "$tmp/odd.c" || { same 'the odd calls are compiled' yes no; return; }
    new_case
    cp "$desk" "$tmp/case/case.model"
    cp "$root/samples/B.trace" "$tmp/case/case.trace"
    same 'seven bytes at a time' 'BLOCKED step 1 fact 5 rounds 2 held 2 kind positive round none' "$(oddly)"
    # 101 bytes take 15 reads and one for the end; the trace's first is the 17th
    same 'the model fails midway' 'case.model: Input/output error' "$(oddly FAIL_READ=5)"
    same 'the model fails at its end' 'case.model: Input/output error' "$(oddly FAIL_READ=16)"
    same 'the trace fails midway' 'case.trace: Input/output error' "$(oddly FAIL_READ=18)"
    # the name, " step " and 1 are written; the fourth write is " fact "
    same 'the line fails midway' "BLOCKED step 1the verdict's line: Input/output error" "$(oddly FAIL_WRITE=4)"
    has 'the line has no end' "round nonethe verdict's line: Input/output error" "$(oddly FAIL_END=1)"
}

# sized LABEL NAME FILE ZEROS: the verdict's name with so many zeros behind a file of the case.
sized() {
    cp "$desk" "$tmp/case/case.model"
    cp "$root/samples/A.trace" "$tmp/case/case.trace"
    zeros "$4" >>"$tmp/case/$3"
    ask
    same "$1" "$(refused "$2")"$'\n' "$out"
}

# Zeros after the last section: not too long up to the bound, where the bytes left over are the fault.
test_sizes() {
    new_case
    sized 'a model of 65,536 bytes' SHAPE case.model $((65536 - 101))
    sized 'a model of 65,537 bytes' LONG case.model $((65537 - 101))
    sized 'a model of a million bytes' LONG case.model 1000000
    sized 'a trace of 4,096 bytes' SHAPE case.trace $((4096 - 9))
    sized 'a trace of 4,097 bytes' LONG case.trace $((4097 - 9))
    : >"$tmp/case/case.model"
    ask
    same 'a trace too long comes before an empty model' "$(refused LONG)"$'\n' "$out"
}

test_samples
test_version_2
test_version_3
test_version_4
test_small_models
test_names
test_missing_files
test_unread_files
test_odd_calls
test_sizes
summary
