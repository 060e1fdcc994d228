#!/usr/bin/env bash
# Tests the analyst's command as people use it, through bin/cantivorex. Expected lines and words are written here by
# hand. Ends in 'N passed, M failed', and exits non-zero unless all passed.
set -u
. "$(dirname "${BASH_SOURCE[0]}")/checks.sh"
command=$root/bin/cantivorex
program=$root/command/target/release/cantivorex

# try WORD..: runs the command; what it printed is in out, its messages in err, its exit in status.
try() {
    out=$(timeout 60 "$command" "$@" 2>"$tmp/err")
    status=$?
    err=$(<"$tmp/err")
}

# says LABEL STATUS MESSAGE: what the last try came to, where it printed nothing.
says() {
    same "$1: exit" "$2" "$status"
    same "$1: nothing printed" '' "$out"
    has "$1: the message" "$3" "$err"
}

test_lines() {
    local name line
    while IFS='|' read -r name line; do
        try "$desk" "$root/samples/$name.trace"
        same "case $name" "$line" "$out"
        same "case $name: exit" 0 "$status"
    done <<<"$desk_lines"
    same 'the whole output has one line end' $'BLOCKED step 1 fact 5 rounds 2 held 2 kind positive round none\n.' \
        "$("$command" check "$desk" "$root/samples/B.trace"; printf .)"
}

# The desk model in parts, for damage.
head_part='01 00000002 0006  00000006 0000 0001 0004'
clauses='00000010 0006 0002 0000 0001  0006 0005 0002 0004'
rules='00000024 000C 0001 0005 0001 0003 0001 0003  0008 0001 0000 0000 0000  000A 0001 0001 0000 0001 0001'
goals='00000014 0008 0002 0003 0005 0000  0008 0001 0004 0001 0000'
fine="$head_part $clauses $rules $goals"
trace_a='01 00000004 0000 0000'

# told NAME BYTES WORDS MODEL [TRACE]: the refusal's name and the second line, for files of hex digits. BYTES starts
# with the file that they are in.
told() {
    bytes "$4" >"$tmp/m.model"
    bytes "${5-$trace_a}" >"$tmp/t.trace"
    told_files "$1" "$2" "$3"
}

told_files() {
    try "$tmp/m.model" "$tmp/t.trace"
    same "$3: the line" "$(refused "$1")" "$out"
    same "$3: exit" 0 "$status"
    local word=${2%% *} file=m.model
    [ "$word" = model ] || file=t.trace
    same "$3: the words" "cantivorex: $1: the $word '$tmp/$file', ${2#* }, $3" "$err"
}

# repeat N HEX: the same digits so many times; count_up N: the numbers from 0, two bytes each.
repeat() {
    local i
    for ((i = 0; i < $1; i++)); do printf '%s' "$2"; done
}
count_up() {
    local i
    for ((i = 0; i < $1; i++)); do printf '%04x' "$i"; done
}

test_long() {
    local wanted='the whole file: a model has at most 65536 bytes'
    { bytes "$fine"; zeros 65436; } >"$tmp/m.model"
    bytes "$trace_a" >"$tmp/t.trace"
    told_files LONG 'model bytes 0 to 65536 (01 00 00 00 02 00 06 00 00 00 06 00 00 00 01 00 ..)' \
        "$wanted"
    bytes "$fine" >"$tmp/m.model"
    { bytes "$trace_a"; zeros 4088; } >"$tmp/t.trace"
    wanted='the whole file: a trace has at most 4096 bytes'
    told_files LONG 'trace bytes 0 to 4096 (01 00 00 00 04 00 00 00 00 00 00 00 00 00 00 00 ..)' \
        "$wanted"
}

test_version() {
    told VERSION 'model before byte 0' \
        'the file is empty: a model starts with the version, 1, 2, 3 or 4' ''
    told VERSION 'model byte 0 (07)' \
        'the version: a model starts with 01, 02, 03 or 04' 07
    told VERSION 'model byte 0 (05)' \
        'the version: a model starts with 01, 02, 03 or 04' "05${fine:2}"
    told VERSION 'trace before byte 0' \
        'the file is empty: a trace starts with the version, 1' "$fine" ''
    told VERSION 'trace byte 0 (02)' \
        'the version: a trace starts with 01' "$fine" '02 00000002 0000'
}

test_shape() {
    told SHAPE 'model bytes 1 to 3 (00 00 00)' \
        'section sizes: its length of 4 bytes was expected, the file has 3 bytes more' \
        '01 000000'
    told SHAPE 'model before byte 7' \
        'section initial facts: its length of 4 bytes was expected, the file has 0 bytes more' \
        '01 00000002 0006'
    told SHAPE 'model bytes 5 to 7 (00 06 00)' \
        'section sizes: it has 3 bytes, exactly 2 were expected' \
        "01 00000003 000600 00000000 $clauses $rules $goals"
    told SHAPE 'model bytes 7 to 14 (00 00 01 00 00 00 00 01)' \
        'section initial facts: its length says 256 bytes, the file has 4 bytes more' \
        '01 00000002 0006 00000100 0000 0001'
    told SHAPE 'model bytes 11 to 13 (00 00 01)' \
        'section initial facts: it has 3 bytes, 2 for each fact were expected' \
        "01 00000002 0006 00000003 000001 $clauses $rules $goals"
    told SHAPE 'model bytes 21 to 25 (00 09 00 02 00)' \
        'section clauses, clause 0: its length says 9 bytes, its section has 3 bytes more' \
        "$head_part 00000005 0009 0002 00 $rules $goals"
    told SHAPE 'model byte 27 (00)' \
        'section clauses, clause 1: its length of 2 bytes was expected, its section has 1 byte more' \
        "$head_part 00000007 0004 0002 0000 00 $rules $goals"
    told SHAPE 'model bytes 21 to 25 (00 03 00 02 00)' \
        'section clauses, clause 0: it has 3 bytes, 2 for the head and 2 for each body fact were expected' \
        "$head_part 00000005 0003 0002 00 $rules $goals"
    told SHAPE 'model bytes 41 to 48 (00 06 00 05 00 00 00 00)' \
        'section rules, rule 0: the count of its P says 5 facts, it has 4 bytes more' \
        "$head_part $clauses 00000008 0006 0005 0000 0000 $goals"
    told SHAPE 'model bytes 41 to 46 (00 04 00 00 00 00)' \
        'section rules, rule 0: it ends where the 2 bytes of the count of its A were expected' \
        "$head_part $clauses 00000006 0004 0000 0000 $goals"
    told SHAPE 'model bytes 41 to 49 (00 07 00 00 00 00 00 00 01)' \
        'section rules, rule 0: its lists end 1 byte before it does' \
        "$head_part $clauses 00000009 0007 0000 0000 0000 01 $goals"
    told SHAPE 'model bytes 101 to 102 (ab cd)' \
        'after the last section, which ends at byte 101: nothing was expected' \
        "$fine abcd"
    told SHAPE 'trace before byte 5' \
        'section goal and steps: it has 0 bytes, 2 for the goal and 2 for each step were expected' \
        "$fine" '01 00000000'
    told SHAPE 'trace byte 7 (ff)' \
        'after the last section, which ends at byte 7: nothing was expected' \
        "$fine" '01 00000002 0000 ff'
    try "$root/samples/B.trace" "$desk"
    same 'swapped files: the line' "$(refused SHAPE)" "$out"
    has 'swapped files: the file' "the model '$root/samples/B.trace', bytes 5 to 10" "$err"
    has 'swapped files: what is likely' '(it was given a trace for the model: are the two files swapped?)' "$err"
    bytes "$head_part 00001770 $(repeat 1000 000400020000) $rules $goals" >"$tmp/m.model"
    try "$root/samples/B.trace" "$tmp/m.model"
    same 'swapped, with a model longer than a trace may be: the line' "$(refused LONG)" "$out"
    has 'swapped, with a model longer than a trace may be' 'are the two files swapped?' "$err"
    try "$desk" "$desk"
    has 'a model twice' '(it was given a model for the trace)' "$err"
}

test_count_number() {
    told COUNT 'model bytes 5 to 6 (10 01)' \
        'section sizes: F is 4097, and at most 4096 is allowed' \
        '01 00000002 1001 00000000 00000000 00000000 00000000'
    told COUNT 'model bytes 15 to 52 (00 24 00 00 00 00 00 01 00 02 00 03 00 04 00 05 ..)' \
        'section clauses, clause 0: its body has 17 facts, and at most 16 are allowed' \
        "01 00000002 0040 00000000 00000026 0024 0000 $(count_up 17) 00000000 00000000"
    told COUNT 'model bytes 19 to 92 (00 48 00 21 00 00 00 01 00 02 00 03 00 04 00 05 ..)' \
        'section rules, rule 0: its P has 33 facts, and at most 32 are allowed' \
        "01 00000002 0040 00000000 00000000 0000004A 0048 0021 $(count_up 33) 0000 0000 00000000"
    told COUNT 'model bytes 407 to 412 (00 04 00 00 00 00)' \
        'section attack states, goal 64: a model has at most 64 of them' \
        "01 00000002 0000 00000000 00000000 00000000 00000186 $(repeat 65 000400000000)"
    told COUNT 'trace bytes 5 to 2056 (00 00 00 00 00 00 00 00 00 00 00 00 00 00 00 00 ..)' \
        'section goal and steps: it has 1025 steps, and at most 1024 are allowed' \
        "$fine" "01 00000804 0000 $(repeat 1025 0000)"
}

test_fact_order() {
    told FACT 'model bytes 11 to 14 (00 00 00 06)' \
        'section initial facts: fact 6 stands in its list, and the model has facts 0 to 5' \
        "01 00000002 0006 00000004 0000 0006 $clauses $rules $goals"
    told FACT 'model bytes 21 to 24 (00 02 ff ff)' \
        'section clauses, clause 0: fact 65535 stands in its head, and the model has facts 0 to 5' \
        "$head_part 00000004 0002 FFFF $rules $goals"
    told FACT 'model bytes 15 to 18 (00 02 00 00)' \
        'section clauses, clause 0: fact 0 stands in its head, and the model has no fact' \
        '01 00000002 0000 00000000 00000004 0002 0000 00000000 00000000'
    told ORDER 'model bytes 41 to 52 (00 0a 00 00 00 02 00 04 00 01 00 00)' \
        'section rules, rule 0: in its N fact 4 stands before fact 1: facts ascend' \
        "$head_part $clauses 0000000C 000A 0000 0002 0004 0001 0000 $goals"
    told ORDER 'model bytes 11 to 14 (00 01 00 01)' \
        'section initial facts: in its list fact 1 stands before fact 1: facts ascend' \
        "01 00000002 0006 00000004 0001 0001 $clauses $rules $goals"
}

test_name() {
    told NAME 'trace bytes 5 to 6 (00 02)' \
        'the goal: it names goal 2, and the model has goals 0 to 1' "$fine" '01 00000002 0002'
    told NAME 'trace bytes 9 to 10 (00 09)' \
        'step 1: it names rule 9, and the model has rules 0 to 2' "$fine" '01 00000006 0000 0000 0009'
    told NAME 'trace bytes 5 to 6 (00 00)' \
        'the goal: it names goal 0, and the model has no goal' \
        '01 00000002 0000 00000000 00000000 00000000 00000000' '01 00000002 0000'
}

# Version 2: the section after the initial facts has its length at 17 and its bytes from 21 on.
test_persistent() {
    local head_2="02${head_part:2}" rest="$clauses $rules $goals" section='section persistent facts'
    told SHAPE 'model before byte 17' \
        "$section: its length of 4 bytes was expected, the file has 0 bytes more" "$head_2"
    told SHAPE 'model bytes 17 to 19 (00 00 00)' \
        "$section: its length of 4 bytes was expected, the file has 3 bytes more" "$head_2 000000"
    told SHAPE 'model bytes 17 to 24 (00 00 01 00 00 01 00 05)' \
        "$section: its length says 256 bytes, the file has 4 bytes more" "$head_2 00000100 0001 0005"
    told SHAPE 'model bytes 21 to 23 (00 01 00)' \
        "$section: it has 3 bytes, 2 for each fact were expected" "$head_2 00000003 000100 $rest"
    told FACT 'model bytes 21 to 24 (00 01 00 06)' \
        "$section: fact 6 stands in its list, and the model has facts 0 to 5" "$head_2 00000004 0001 0006 $rest"
    told ORDER 'model bytes 21 to 24 (00 05 00 01)' \
        "$section: in its list fact 5 stands before fact 1: facts ascend" "$head_2 00000004 0005 0001 $rest"
    # An empty one is fine; what comes after it is told by its own name.
    told SHAPE 'model before byte 21' \
        'section clauses: its length of 4 bytes was expected, the file has 0 bytes more' "$head_2 00000000"
    told SHAPE 'model bytes 25 to 29 (00 09 00 02 00)' \
        'section clauses, clause 0: its length says 9 bytes, its section has 3 bytes more' \
        "$head_2 00000000 00000005 0009 0002 00 $rules $goals"
    # Version 2 without its section: the clauses' bytes are taken for facts.
    told FACT 'model bytes 21 to 36 (00 06 00 02 00 00 00 01 00 06 00 05 00 02 00 04)' \
        "$section: fact 6 stands in its list, and the model has facts 0 to 5" "$head_2 $rest"
    try "$desk" "$root/samples/mandate/persistent.model"
    has 'a model of version 2 for a trace' \
        'byte 0 (02), the version: a trace starts with 01 (it was given a model for the trace)' "$err"
    bytes "$head_2 00000000 $rest" >"$tmp/m.model"
    try show "$tmp/m.model"
    same 'no persistent fact' 'persistent facts: none' "$(sed -n 3p <<<"$out")"
    bytes "02 00000002 0064 00000000 000000C8 $(count_up 100) 00000000 00000000 00000000" >"$tmp/m.model"
    try show "$tmp/m.model"
    has 'all persistent facts are shown' ', 98, 99' "$(sed -n 3p <<<"$out")"
    try count "$tmp/m.model"
    has 'a long list of persistent facts is cut' '22, 23 and 76 more' "$(sed -n 2p <<<"$out")"
    try count --all "$tmp/m.model"
    has 'or not' ', 98, 99' "$(sed -n 2p <<<"$out")"
}

# Version 3, the desk model without persistent facts: the section after these has its length at 21 and its bytes from
# 25 on; where it is empty the rules' section has its length at 45 and its records from 49 on.
head_3="03${head_part:2} 00000000"
rules_3='0000002A 000E 0001 0005 0001 0003 0001 0003 0000
    000A 0001 0000 0000 0000 0000  000C 0001 0001 0000 0001 0001 0000'

test_names_in_use() {
    local rest="$clauses $rules_3 $goals" section='section names in use'
    told SHAPE 'model before byte 21' \
        "$section: its length of 4 bytes was expected, the file has 0 bytes more" "$head_3"
    told SHAPE 'model bytes 21 to 23 (00 00 00)' \
        "$section: its length of 4 bytes was expected, the file has 3 bytes more" "$head_3 000000"
    told SHAPE 'model bytes 21 to 28 (00 00 01 00 00 01 00 05)' \
        "$section: its length says 256 bytes, the file has 4 bytes more" "$head_3 00000100 0001 0005"
    told SHAPE 'model bytes 25 to 27 (00 01 00)' \
        "$section: it has 3 bytes, 2 for each name were expected" "$head_3 00000003 000100 $rest"
    told BADNAME 'model bytes 25 to 28 (00 01 04 00)' \
        "$section: name 1024 stands in its list, and a name is at most 1023" "$head_3 00000004 0001 0400 $rest"
    told BADNAME 'model bytes 25 to 28 (ff ff 00 01)' \
        "$section: name 65535 stands in its list, and a name is at most 1023" "$head_3 00000004 FFFF 0001 $rest"
    told ORDER 'model bytes 25 to 28 (00 05 00 01)' \
        "$section: in its list name 5 stands before name 1: names ascend" "$head_3 00000004 0005 0001 $rest"
    # An empty one is fine; what comes after it is told by its own name.
    told SHAPE 'model before byte 25' \
        'section clauses: its length of 4 bytes was expected, the file has 0 bytes more' "$head_3 00000000"
    # Version 3 without its section: the clauses' bytes are taken for names.
    told ORDER 'model bytes 25 to 40 (00 06 00 02 00 00 00 01 00 06 00 05 00 02 00 04)' \
        "$section: in its list name 6 stands before name 2: names ascend" "$head_3 $rest"
    # A name has nothing to do with F.
    bytes "$head_3 00000004 0006 03FF $rest" >"$tmp/m.model"
    try "$tmp/m.model" "$root/samples/A.trace"
    same 'names from F up to 1023 are fine' 'ATTACK step 1 fact none rounds 4 held 4 kind none round none' "$out$err"
    try "$desk" "$root/samples/table2-fresh/fresh.model"
    has 'a model of version 3 for a trace' \
        'byte 0 (03), the version: a trace starts with 01 (it was given a model for the trace)' "$err"
}

test_names_made() {
    local before="$head_3 00000000 $clauses" rule='section rules, rule 0'
    told SHAPE 'model bytes 49 to 56 (00 06 00 00 00 00 00 00)' \
        "$rule: it ends where the 2 bytes of the count of its list of names were expected" \
        "$before 00000008 0006 0000 0000 0000 $goals"
    told SHAPE 'model bytes 49 to 60 (00 0a 00 00 00 00 00 00 00 05 00 01)' \
        "$rule: the count of its list of names says 5 names, it has 2 bytes more" \
        "$before 0000000C 000A 0000 0000 0000 0005 0001 $goals"
    told SHAPE 'model bytes 49 to 59 (00 09 00 00 00 00 00 00 00 00 01)' \
        "$rule: its lists end 1 byte before it does" "$before 0000000B 0009 0000 0000 0000 0000 01 $goals"
    told COUNT 'model bytes 49 to 124 (00 4a 00 00 00 00 00 00 00 21 00 00 00 01 00 02 ..)' \
        "$rule: its list of names has 33 names, and at most 32 are allowed" \
        "$before 0000004C 004A 0000 0000 0000 0021 $(count_up 33) $goals"
    told BADNAME 'model bytes 49 to 62 (00 0c 00 00 00 00 00 00 00 02 00 01 04 00)' \
        "$rule: name 1024 stands in its list of names, and a name is at most 1023" \
        "$before 0000000E 000C 0000 0000 0000 0002 0001 0400 $goals"
    told ORDER 'model bytes 49 to 62 (00 0c 00 00 00 00 00 00 00 02 00 05 00 05)' \
        "$rule: in its list of names name 5 stands before name 5: names ascend" \
        "$before 0000000E 000C 0000 0000 0000 0002 0005 0005 $goals"
    # One record with all three: FACT comes before BADNAME, and BADNAME before ORDER.
    told FACT 'model bytes 49 to 64 (00 0e 00 02 00 06 00 00 00 00 00 00 00 01 04 00)' \
        "$rule: fact 6 stands in its P, and the model has facts 0 to 5" \
        "$before 00000010 000E 0002 0006 0000 0000 0000 0001 0400 $goals"
    told BADNAME 'model bytes 49 to 64 (00 0e 00 02 00 05 00 00 00 00 00 00 00 01 04 00)' \
        "$rule: name 1024 stands in its list of names, and a name is at most 1023" \
        "$before 00000010 000E 0002 0005 0000 0000 0000 0001 0400 $goals"
    # Four lists before version 3.
    told SHAPE 'model bytes 41 to 50 (00 08 00 00 00 00 00 00 00 00)' \
        "$rule: its lists end 2 bytes before it does" "$head_part $clauses 0000000A 0008 0000 0000 0000 0000 $goals"
}

# Version 4, the desk model without persistent facts and names: the last section has its length at 115 and its records
# from 119 on.
test_formula_records() {
    local before="04${head_part:2} 00000000 00000000 $clauses $rules_3 $goals" section='section formulas'
    local formula="$section, formula 0"
    told SHAPE 'model before byte 115' \
        "$section: its length of 4 bytes was expected, the file has 0 bytes more" "$before"
    told SHAPE 'model bytes 115 to 122 (00 00 01 00 00 02 00 05)' \
        "$section: its length says 256 bytes, the file has 4 bytes more" "$before 00000100 0002 0005"
    told SHAPE 'model bytes 119 to 122 (00 04 00 00)' \
        "$formula: its length says 4 bytes, its section has 2 bytes more" "$before 00000004 0004 0000"
    told SHAPE 'model bytes 119 to 123 (00 03 80 00 00)' \
        "$formula: it has 3 bytes, 2 for each code were expected" "$before 00000005 0003 800000"
    told SHAPE 'model byte 119 (ab)' \
        'after the last section, which ends at byte 119: nothing was expected' "$before 00000000 ab"
    told COUNT 'model bytes 119 to 632 (02 00 80 00 80 00 80 00 80 00 80 00 80 00 80 00 ..)' \
        "$formula: its list of codes has 256 codes, and at most 255 are allowed" \
        "$before 00000202 0200 $(repeat 255 8000) 0006"
    told COUNT 'model bytes 375 to 378 (00 02 00 00)' \
        "$section, formula 64: a model has at most 64 of them" "$before 00000104 $(repeat 65 00020000)"
    told FACT 'model bytes 119 to 126 (00 06 80 01 00 05 00 06)' \
        "$formula: fact 6 stands in its list of codes, and the model has facts 0 to 5" \
        "$before 00000008 0006 8001 0005 0006"
    # FACT comes before FORMULA, and looks behind the formula's end.
    told FACT 'model bytes 119 to 124 (00 04 00 00 7f ff)' \
        "$formula: fact 32767 stands in its list of codes, and the model has facts 0 to 5" \
        "$before 00000006 0004 0000 7FFF"
    told FORMULA 'model bytes 119 to 120 (00 00)' \
        "$formula: it ends where code 0 was expected: its formula is unfinished" "$before 00000002 0000"
    told FORMULA 'model bytes 123 to 128 (00 04 80 01 00 05)' \
        "$section, formula 1: it ends where code 2 was expected: its formula is unfinished" \
        "$before 0000000A 0002 0005 0004 8001 0005"
    told FORMULA 'model bytes 119 to 124 (00 04 80 00 80 08)' \
        "$formula: code 1 is 32776, and a code is at most 32775" "$before 00000006 0004 8000 8008"
    told FORMULA 'model bytes 119 to 126 (00 06 80 00 00 05 00 05)' \
        "$formula: its formula ends with code 1, and it has 1 code more" "$before 00000008 0006 8000 0005 0005"
    told FORMULA 'model bytes 119 to 186 (00 42 80 00 80 00 80 00 80 00 80 00 80 00 80 00 ..)' \
        "$formula: code 32 stands 33 deep, and at most 32 is allowed" "$before 00000044 0042 $(repeat 32 8000) 0000"
    told NAME 'trace bytes 5 to 6 (00 03)' \
        'the goal: it names goal 3, and the model has goals 0 to 2' "$before 00000004 0002 0000" '01 00000002 0003'
    # 31 times `not` over a fact that is there: 32 deep, and false.
    bytes "$before 00000042 0040 $(repeat 31 8000) 0000" >"$tmp/m.model"
    bytes '01 00000002 0002' >"$tmp/t.trace"
    try "$tmp/m.model" "$tmp/t.trace"
    same 'a formula 32 deep' 'ATTACK step 0 fact none rounds 2 held 3 kind none round none' "$out$err"
    bytes "$before 00000000" >"$tmp/m.model"
    try "$tmp/m.model" "$root/samples/A.trace"
    same 'no formula at all' 'ATTACK step 1 fact none rounds 4 held 4 kind none round none' "$out$err"
    try show "$tmp/m.model"
    same 'no formula as text' 'formulas: 0' "${out##*$'\n'}"
    bytes "$before 00000002 0000" >"$tmp/m.model"
    try --exit-verdict "$tmp/m.model" "$root/samples/A.trace"
    same 'the verdict as exit, FORMULA' 17 "$status"
    try "$desk" "$root/samples/past/form.model"
    has 'a model of version 4 for a trace' \
        'byte 0 (04), the version: a trace starts with 01 (it was given a model for the trace)' "$err"
}

test_usage() {
    try
    says 'no words' 2 'usage: cantivorex MODEL TRACE'
    try "$desk" "$desk" "$desk"
    says 'three names' 2 'usage: cantivorex [check] MODEL TRACE'
    try "$desk" "$tmp/nowhere"
    says 'a missing file' 2 "there is no file '$tmp/nowhere'"
    try "$tmp" "$root/samples/A.trace"
    says 'a folder' 2 "'$tmp' is a folder, not a file"
    try "$desk" /proc/self/mem
    says 'a read that fails' 2 "'/proc/self/mem' can't be read: Input/output error"
    try "$desk" --frobnicate "$desk"
    says 'an unknown option' 2 "there is no option '--frobnicate'"
    try night "$tmp" --limit
    says 'an option without its value' 2 '--limit wants a value'
    try night "$tmp" --limit never
    says 'a limit that is none' 2 "--limit wants seconds, more than 0, and not 'never'"
    try night "$tmp" --limit 1e300
    says 'a limit beyond all clocks' 2 "--limit wants seconds, more than 0, and not '1e300'"
    try night "$tmp" --only SOME
    says 'a verdict that is none' 2 "there is no verdict 'SOME'; the verdicts are ATTACK, ROOM,"
    try night "$tmp" --only NEGATED
    says 'a verdict that is never given' 2 "there is no verdict 'NEGATED'; the verdicts are ATTACK, ROOM,"
    try night "$tmp" --tsv=yes
    says 'a value too many' 2 '--tsv takes no value'
    try night "$tmp" --model "$desk" --model "$desk"
    says 'an option twice' 2 '--model is given twice'
    try help nothing
    says 'help for nothing' 2 "there is no command 'nothing'"
    try "$desk" /dev/null
    same 'an empty device is an empty file' "$(refused VERSION)" "$out"
}

test_help() {
    local word
    try --help
    same 'help: exit' 0 "$status"
    for word in check count holds night rules show; do
        has "help names $word" "$word" "$out"
        same "help $word" "$("$command" "$word" --help)" "$("$command" help "$word")"
        has "help $word has an example" "Example" "$("$command" "$word" -h)"
    done
    same 'help fits a terminal' '' \
        "$(for word in '' check count holds night rules show; do "$command" $word --help; done | grep -E '.{81}')"
    try --version
    same 'the version' "cantivorex 0.1.0 library $(sha256sum "$root/target/staticlib/libexports.a" | head -c 16)" "$out"
}

test_exit_verdict() {
    local case number
    for case in A0 B10 E11 G9; do
        try --exit-verdict "$desk" "$root/samples/${case:0:1}.trace"
        same "the verdict as exit, case ${case:0:1}" "${case:1}" "$status"
    done
    try --exit-verdict "$root"/samples/table2-fresh/{fresh.model,not-fresh.trace}
    same 'the verdict as exit, USED' 13 "$status"
    bytes "$head_3 00000002 0400" >"$tmp/m.model"
    try --exit-verdict "$tmp/m.model" "$root/samples/A.trace"
    same 'the verdict as exit, BADNAME' 12 "$status"
    try --exit-verdict "$desk" "$tmp/nowhere"
    same 'a missing file is no verdict' 102 "$status"
    "$command" --exit-verdict "$desk" "$root/samples/A.trace" >/dev/full 2>/dev/null
    same 'a lost line is no verdict' 101 $?
}

# Standard input, pipes, links, odd names, another folder.
test_files() {
    local line='BLOCKED step 1 fact 5 rounds 2 held 2 kind positive round none'
    same 'the trace from standard input' "$line" "$("$command" "$desk" - <"$root/samples/B.trace")"
    same 'the model from a pipe' "$line" "$(cat "$desk" | "$command" check - "$root/samples/B.trace")"
    same 'both from <(..)' "$line" "$("$command" <(cat "$desk") <(cat "$root/samples/B.trace"))"
    try - -
    says 'both from standard input' 2 'only one of the two files can be standard input'
    mkfifo "$tmp/pipe"
    try "$desk" "$tmp/pipe"
    says 'a named pipe' 2 "'$tmp/pipe' is not read: a named pipe may wait for ever"
    mkdir "$tmp/odd"
    cp "$desk" "$tmp/odd/-the desk.model"
    cp "$root/samples/B.trace" "$tmp/odd/"$'two\nlines.trace'
    same 'odd names, from their folder' "$line" \
        "$(cd "$tmp/odd" && "$command" -- '-the desk.model' $'two\nlines.trace')"
    try "$desk" "$tmp/odd/"$'no\nsuch \e[2J.trace'
    has 'a message is one line' "there is no file '$tmp/odd/no\\nsuch \\u{1b}[2J.trace'" "$err"
    ln -s "$tmp/odd/-the desk.model" "$tmp/odd/link.model"
    same 'a link to a file' "$line" "$("$command" "$tmp/odd/link.model" "$root/samples/B.trace")"
    ln -s loop "$tmp/odd/loop"
    try "$desk" "$tmp/odd/loop"
    says 'a link to itself' 2 'Too many levels of symbolic links'
    ln -s "$command" "$tmp/odd/first" && ln -s first "$tmp/odd/second"
    same 'a link to the command' "$line" "$(cd / && "$tmp/odd/second" "$desk" "$root/samples/B.trace")"
}

# no_room LABEL WORD..: the command on a full disk.
no_room() {
    err=$("$command" "${@:2}" 2>&1 >/dev/full)
    same "$1 on a full disk: exit" 1 $?
    has "$1 on a full disk: the message" "the output can't be written: No space left on device" "$err"
}

test_lost_output() {
    no_room check "$desk" "$root/samples/B.trace"
    no_room count count "$desk" "$root/samples/B.trace"
    no_room show show "$desk"
    no_room holds holds "$desk" "$root/samples/A.trace" 5
    no_room 'an absent fact' holds "$desk" "$root/samples/D.trace" 5
    no_room night night "$root/samples" --model "$desk"
    no_room tsv night "$root/samples" --model "$desk" --tsv --only ATTACK
    no_room help --help
    no_room version --version
    "$command" night "$root/samples" --model "$desk" >/dev/full 2>/dev/null && touch "$tmp/signed"
    same 'a cut report is not signed' '' "$(ls "$tmp" | grep signed)"
    "$command" "$desk" "$root/samples/G.trace" >/dev/null 2>/dev/full
    same 'a reason that is lost: exit' 1 $?
    err=$("$command" "$desk" "$root/samples/B.trace" 2>&1 >&-)
    same 'a closed output: exit' 1 $?
    has 'a closed output: the message' 'the output is closed' "$err"
    err=$("$command" "$desk" "$root/samples/B.trace" 2>&1 1</dev/null)
    same 'an output that is for reading: exit' 1 $?
    # The reader has gone by the time when the lines come.
    { sleep 0.3; "$command" night "$root/samples" --model "$desk" 2>"$tmp/err"; echo $? >"$tmp/status"; } | true
    same 'a closed pipe: exit' 1 "$(<"$tmp/status")"
    has 'a closed pipe: the message' "the output can't be written: Broken pipe" "$(<"$tmp/err")"
}

test_show_and_count() {
    try show "$desk"
    same 'the desk model as text' "facts: 6
  0 clerk(ana)
  1 open(form)
  2 edits(ana)
  3 frozen
  4 deputy(ben,ana)
  5 edits(ben)
initial facts: 0 clerk(ana), 1 open(form), 4 deputy(ben,ana)
clauses: 2
  clause 0: 2 edits(ana) from 0 clerk(ana), 1 open(form)
  clause 1: 5 edits(ben) from 2 edits(ana), 4 deputy(ben,ana)
rules: 3
  rule 0 sign: needs 5 edits(ben); not 3 frozen; adds 3 frozen
  rule 1 dismiss: needs 0 clerk(ana)
  rule 2 look: needs 1 open(form); adds 1 open(form)
attack states: 2
  goal 0 ben edits a frozen form: needs 3 frozen, 5 edits(ben)
  goal 1 ben is deputy and ana no clerk: needs 4 deputy(ben,ana); not 0 clerk(ana)" "$out"
    try show "$root/samples/A.trace"
    says 'a file that is no model' 1 'section sizes: it has 4 bytes, exactly 2 were expected'
    try count "$desk" "$root/samples/C.trace"
    same 'counting' "model '$desk': 6 facts, 2 clauses, 3 rules, 2 attack states
state 0, the initial one: 3 stored, 2 reached by closing in 2 rounds, 1 not reached
  stored:      0 clerk(ana), 1 open(form), 4 deputy(ben,ana)
  reached:     2 edits(ana) (round 1), 5 edits(ben) (round 2)
  not reached: 3 frozen
state 1, after step 0, rule 0 sign: 4 stored, 2 reached by closing in 2 rounds, 0 not reached
  stored:      0 clerk(ana), 1 open(form), 3 frozen, 4 deputy(ben,ana)
  reached:     2 edits(ana) (round 1), 5 edits(ben) (round 2)
  not reached: none
BLOCKED: step 1, rule 0 sign, can't fire: fact 3 frozen is in the way, since it is stored
BLOCKED step 1 fact 3 rounds 4 held 4 kind negative round 0" "$out"
    ends A 'ATTACK: the only step fires, and goal 0 ben edits a frozen form is met in state 1'
    ends B "BLOCKED: step 1, rule 0 sign, can't fire: fact 5 edits(ben) is missing"
    ends E "NOATTACK: there are no steps, but goal 1 ben is deputy and ana no clerk is not met in state 0: $(
        )fact 0 clerk(ana) is in the way, since it is stored"
    try count "$desk" "$root/samples/G.trace"
    has 'counting a refused trace: what the model has' '6 facts, 2 clauses' "$out"
    has 'counting a refused trace: why' "NAME: the trace '$root/samples/G.trace', bytes 5 to 6 (00 02), the goal" "$out"
    try count "$desk"
    same 'counting a model alone ends with its initial state' '  not reached: 3 frozen' "${out##*$'\n'}"
    bytes "01 00000002 0064 00000000 00000000 00000000 00000000" >"$tmp/m.model"
    try count "$tmp/m.model"
    same 'a model without a goal' "model '$tmp/m.model': 100 facts, 0 clauses, 0 rules, 0 attack states
it has no goal, so that no trace can be checked with it" "$out"
    # The trace's version is told before the model's missing sections; a model that is refused has no figures.
    bytes "01 00000002 0064 00" >"$tmp/m.model"
    bytes "02 00000004 0000 0000" >"$tmp/t.trace"
    try count "$tmp/m.model" "$tmp/t.trace"
    same 'two files at fault' \
        "VERSION: the trace '$tmp/t.trace', byte 0 (02), the version: a trace starts with 01" "$out"
    bytes "01 00000002 0064 00000000 00000000 00000000 00000006 0004 0000 0000" >"$tmp/m.model"
    try count "$tmp/m.model"
    has 'a long list is cut' '22, 23 and 76 more' "$out"
    try count --all "$tmp/m.model"
    has 'or not' ', 98, 99' "$out"
}

# ends CASE WORDS: the last line but one of counting a case.
ends() {
    try count "$desk" "$root/samples/$1.trace"
    same "how case $1 ends" "$2" "$(tail -n 2 <<<"$out" | head -n 1)"
}

# rules CASE LINES: what can fire after a trace of the desk model.
rules() {
    try rules "$desk" "$root/samples/$1.trace"
    same "the rules after case $1" "$2" "$out$err"
    same "the rules after case $1: exit" 0 "$status"
}

# What a rule would take away is stored; 5 is derived at first, and so is no part of it.
test_rules() {
    local all='  rule 0 sign: adds 3 frozen
  rule 1 dismiss: takes away 0 clerk(ana)
  rule 2 look: takes away 1 open(form); adds 1 open(form)'
    rules A "state 1, after step 0, rule 0 sign: 2 of 3 rules can fire
${all#*$'\n'}"
    rules B "state 1, after step 0, rule 1 dismiss: 1 of 3 rules can fire
  rule 2 look: takes away 1 open(form); adds 1 open(form)
BLOCKED: step 1, rule 0 sign, can't fire: fact 5 edits(ben) is missing"
    rules C "state 1, after step 0, rule 0 sign: 2 of 3 rules can fire
${all#*$'\n'}
BLOCKED: step 1, rule 0 sign, can't fire: fact 3 frozen is in the way, since it is stored"
    rules E "state 0, the initial one: 3 of 3 rules can fire
$all"
    try rules "$desk" "$root/samples/G.trace"
    says 'the rules after a refused trace' 1 "NAME: the trace '$root/samples/G.trace', bytes 5 to 6 (00 02), the goal"
    try rules "$root/samples/A.trace" "$desk"
    says 'the rules of no model' 1 'are the two files swapped?'
    try rules "$desk"
    says 'the rules without a trace' 2 'usage: cantivorex rules MODEL TRACE'
    try rules "$desk" "$tmp/none.trace"
    says 'the rules after no trace' 2 "there is no file '$tmp/none.trace'"
    try rules "$root/samples/tasks/tasks.model" "$root/samples/tasks/denied-by-duty.trace"
    same 'the rules after a derived denial' \
        "BLOCKED: step 4, rule 7 grant(post,ana), can't fire: $(
        )fact 29 denied(task(post,1,loan),ana) is in the way since round 1" "${out##*$'\n'}"
    # Facts 0 and 1 are stored, and 1 is persistent; the rule needs both.
    bytes '02 00000002 0002 00000004 0000 0001 00000002 0001 00000000 0000000C 000A 0002 0000 0001 0000 0000
        00000006 0004 0000 0000' >"$tmp/m.model"
    bytes '01 00000002 0000' >"$tmp/t.trace"
    try rules "$tmp/m.model" "$tmp/t.trace"
    same 'what is persistent stays' 'state 0, the initial one: 1 of 1 rule can fire
  rule 0: takes away 0' "$out$err"
    # Names: 5 is in use at the start, 7 and 1,023 are made by rule 0.
    bytes "$two_facts" >"$tmp/f.model"
    printf 'fact 0 open\nname 7 nonce1\nname 5 old\nrule 2 wait\n' >"$tmp/f.names"
    try rules "$tmp/f.model" "$tmp/t.trace"
    same 'what would be made' 'state 0, the initial one: 2 of 4 rules can fire
  rule 0: takes away 0 open; adds 0 open; makes 7 nonce1, 1023
  rule 2 wait: changes nothing' "$out$err"
    bytes '01 00000008 0000 0002 0000 0000' >"$tmp/t.trace"
    try rules "$tmp/f.model" "$tmp/t.trace"
    same 'after a used name' "state 2, after step 1, rule 0: 1 of 4 rules can fire
  rule 2 wait: changes nothing
USED: step 2, rule 0, can't fire: name 7 nonce1 is in use" "$out$err"
    # As many rules as there may be, without a condition.
    { bytes '01 00000002 0000 00000000 00000000 00004000'; bytes "$(repeat 2048 '0006 0000 0000 0000')"
        bytes '00000006 0004 0000 0000'; } >"$tmp/m.model"
    bytes '01 00000002 0000' >"$tmp/t.trace"
    try rules "$tmp/m.model" "$tmp/t.trace"
    same '2,048 rules' 'state 0, the initial one: 2048 of 2048 rules can fire' "${out%%$'\n'*}"
    same '2,048 rules: the last' '  rule 2047: changes nothing' "${out##*$'\n'}"
    same '2,048 rules: the lines' 2049 "$(wc -l <<<"$out")"
    bytes '01 00000002 0001 00000000 00000000 00000000 00000006 0004 0000 0000' >"$tmp/m.model"
    try rules "$tmp/m.model" "$tmp/t.trace"
    same 'no rule' 'state 0, the initial one: 0 of 0 rules can fire' "$out$err"
}

# holds CASE FACT EXIT LINE: one fact after a trace of the desk model.
holds() {
    try holds "$desk" "$root/samples/$1.trace" "$2"
    same "fact $2 after case $1" "$4" "$out$err"
    same "fact $2 after case $1: exit" "$3" "$status"
}

# In the desk model 0, 1 and 4 are stored at first, 2 comes in round 1 and 5 in round 2.
test_holds() {
    local first='state 0, the initial one' signed='state 1, after step 0, rule 0 sign' hint
    holds E 0 0 "HELD since round 0: fact 0 clerk(ana) is stored in $first"
    holds E 2 0 "HELD since round 1: fact 2 edits(ana) is derived in $first"
    holds E 'edits(ben)' 0 "HELD since round 2: fact 5 edits(ben) is derived in $first"
    holds E '5 edits(ben)' 0 "HELD since round 2: fact 5 edits(ben) is derived in $first"
    holds E frozen 3 "ABSENT after 2 rounds: fact 3 frozen is neither stored nor derived in $first"
    holds A frozen 0 "HELD since round 0: fact 3 frozen is stored in $signed"
    holds A 005 0 "HELD since round 2: fact 5 edits(ben) is derived in $signed"
    holds D 5 3 "ABSENT after 0 rounds: fact 5 edits(ben) is neither stored nor derived in $(
        )state 1, after step 0, rule 1 dismiss"
    # A step that can't fire, whatever is asked for; but a fact that there isn't is told first.
    try holds "$desk" "$root/samples/B.trace" 4
    says 'a fact after a blocked step' 1 "BLOCKED: step 1, rule 0 sign, can't fire: $(
        )fact 5 edits(ben) is missing; there is no state after all steps"
    try holds "$desk" "$root/samples/C.trace" 5
    says 'a fact after another' 1 "fact 3 frozen is in the way, since it is stored; there is no state after all steps"
    for hint in B C E; do
        try holds "$desk" "$root/samples/$hint.trace" 6
        says "fact 6 after case $hint" 2 "FACT: there is no fact '6': the model has facts 0 to 5"
        try holds "$desk" "$root/samples/$hint.trace" nobody
        says "a fact without a name after case $hint" 2 "no fact is called 'nobody': give its number; $(
            )the model has facts 0 to 5"
    done
    for hint in 65535 65536 4294967296 18446744073709551615 18446744073709551616 99999999999999999999999; do
        try holds "$desk" "$root/samples/E.trace" "$hint"
        says "fact $hint" 2 "FACT: there is no fact '$hint'"
    done
    # The files are judged before the fact.
    try holds "$desk" "$root/samples/G.trace" 6
    says 'a fact after a refused trace' 1 "NAME: the trace '$root/samples/G.trace', bytes 5 to 6 (00 02), the goal"
    try holds "$root/samples/A.trace" "$desk" nobody
    says 'a fact of no model' 1 'are the two files swapped?'
    try holds "$desk" "$root/samples/A.trace"
    says 'no fact asked for' 2 'usage: cantivorex holds MODEL TRACE FACT'
    try holds "$desk" "$tmp/none.trace" 5
    says 'a fact after no trace' 2 "there is no file '$tmp/none.trace'"
    try holds "$desk" "$root/samples/A.trace" ''
    says 'an empty word' 2 "no fact is called ''"
    out=$("$command" holds "$desk" - frozen <"$root/samples/A.trace")
    same 'a trace from standard input' "HELD since round 0: fact 3 frozen is stored in $signed" "$out"
    # A used name; and names that two facts share, or that are numbers.
    bytes "$two_facts" >"$tmp/f.model"
    printf 'fact 0 open\nfact 1 open\nname 5 old\n' >"$tmp/f.names"
    bytes '01 00000004 0000 0001' >"$tmp/t.trace"
    try holds "$tmp/f.model" "$tmp/t.trace" 0
    says 'a fact after a used name' 1 "USED: step 0, rule 1, can't fire: name 5 old is in use; there is no state"
    bytes '01 00000002 0000' >"$tmp/t.trace"
    try holds "$tmp/f.model" "$tmp/t.trace" open
    says 'a name of two facts' 2 "facts 0, 1 are all called 'open': give one's number"
    try holds "$tmp/f.model" "$tmp/t.trace" '1 open'
    same 'the number before a name' \
        "ABSENT after 0 rounds: fact 1 open is neither stored nor derived in $first" "$out$err"
    printf 'fact 0 1\n' >"$tmp/f.names"
    try holds "$tmp/f.model" "$tmp/t.trace" 1
    same 'a number is no name' "ABSENT after 0 rounds: fact 1 is neither stored nor derived in $first" "$out$err"
    rm "$tmp/f.names"
    # A chain of 4,000 clauses: fact f in round f.
    bytes "01 00000002 1000 00000002 0000 00005DC0 $(
        awk 'BEGIN { for (k = 0; k < 4000; k++) printf "0004%04x%04x", k + 1, k }'
    ) 00000000 00000006 0004 0000 0000" >"$tmp/m.model"
    try holds "$tmp/m.model" "$tmp/t.trace" 3
    same 'fact 3 of a chain' "HELD since round 3: fact 3 is derived in $first" "$out$err"
    try holds "$tmp/m.model" "$tmp/t.trace" 4000
    same 'the last of a chain' "HELD since round 4000: fact 4000 is derived in $first" "$out$err"
    try holds "$tmp/m.model" "$tmp/t.trace" 4095
    same 'the last fact of all' "ABSENT after 4000 rounds: fact 4095 is neither stored nor derived in $first" "$out$err"
    same 'the last fact of all: exit' 3 "$status"
    try holds "$tmp/m.model" "$tmp/t.trace" 4096
    says 'fact 4096' 2 "FACT: there is no fact '4096': the model has facts 0 to 4095"
    bytes '01 00000002 0000 00000000 00000000 00000000 00000006 0004 0000 0000' >"$tmp/m.model"
    try holds "$tmp/m.model" "$tmp/t.trace" 0
    says 'a model without facts' 2 "FACT: there is no fact '0': the model has no facts"
}

# Document 003's Table 2: what holds at first, and what is gone after the first rule for a.
test_table2() {
    local folder=$root/samples/table2
    mkdir "$tmp/made"
    "$root/samples/tables/make" "$tmp/made" || same 'the samples are made' yes no
    (cd "$tmp/made" && find . -type f) | sort >"$tmp/list"
    same 'samples/ has what the tables make' '' \
        "$(cd "$root/samples" && while read -r file; do cmp "$file" "$tmp/made/$file"; done <"$tmp/list" 2>&1)"
    same 'and nothing else' "$(<"$tmp/list")" "$(cd "$root/samples" && find . -type f ! -path './tables/*' | sort)"
    try night "$folder" --model "$folder/table2.model"
    same 'the verdicts on Table 2' "NOATTACK step 1 fact 20 rounds 2 held 5 kind positive round none          a-moves
BLOCKED step 1 fact 0 rounds 2 held 5 kind positive round none            a-moves-twice
ATTACK step 0 fact none rounds 1 held 6 kind none round none              at-first
NOATTACK step 0 fact 21 rounds 1 held 6 kind positive round none          attack
NOATTACK step 1 fact 20 rounds 2 held 5 kind positive round none          attack-after
5 traces with $folder/table2.model: ATTACK 1, BLOCKED 1, NOATTACK 3; 0 not read" "$out"
    try count "$folder/table2.model" "$folder/a-moves.trace"
    same 'Example 2' '  reached:     20 xs(a,f1) (round 1), 23 xs(b,f2) (round 1)
  reached:     23 xs(b,f2) (round 1)' "$(grep reached: <<<"$out" | grep -v not)"
    has 'Example 2: what is gone' 'goal 48 both is not met in state 1: fact 20 xs(a,f1) is missing' "$out"
}

# Document 001's task engine: a clerk is granted a task unless `denied`, which clauses derive, is in the way.
test_tasks() {
    local folder=$root/samples/tasks
    try night "$folder" --model "$folder/tasks.model"
    same 'the verdicts on the task engine' "\
BLOCKED step 4 fact 29 rounds 5 held 11 kind negative round 1             denied-by-duty
BLOCKED step 1 fact 30 rounds 2 held 10 kind negative round 1             denied-by-role
ATTACK step 2 fact none rounds 3 held 10 kind none round none             granted
ATTACK step 0 fact none rounds 1 held 9 kind none round none              may
NOATTACK step 0 fact 30 rounds 1 held 9 kind negative round 1             may-not
5 traces with $folder/tasks.model: ATTACK 2, BLOCKED 2, NOATTACK 1; 0 not read" "$out"
    try count "$folder/tasks.model" "$folder/denied-by-duty.trace"
    same 'what is in the way of the second task' "BLOCKED: step 4, rule 7 grant(post,ana), can't fire: $(
        )fact 29 denied(task(post,1,loan),ana) is in the way since round 1" "$(tail -n 2 <<<"$out" | head -n 1)"
    try count "$folder/tasks.model" "$folder/may-not.trace"
    has 'a goal whose only condition is a head' "goal 7 may(post,ben) is not met in state 0: $(
        )fact 30 denied(task(post,1,loan),ben) is in the way since round 1" "$out"
}

# A derived right that signing doesn't use up: version 1 adds it again, and it outlives the mandate; version 2 doesn't.
test_mandate() {
    local folder=$root/samples/mandate
    try "$folder/added.model" "$folder/revoked.trace"
    same 'a right that is added again' 'ATTACK step 2 fact none rounds 1 held 1 kind none round none' "$out"
    try "$folder/persistent.model" "$folder/revoked.trace"
    same 'a right that is persistent' 'NOATTACK step 2 fact 1 rounds 2 held 0 kind positive round none' "$out"
    try show "$folder/persistent.model"
    same 'version 2 as text' 'facts: 2
  0 mandate(ana)
  1 may_sign(ben)
initial facts: 0 mandate(ana)
persistent facts: 1 may_sign(ben)
clauses: 1
  clause 0: 1 may_sign(ben) from 0 mandate(ana)
rules: 2
  rule 0 sign: needs 1 may_sign(ben)
  rule 1 revoke: needs 0 mandate(ana)
attack states: 1
  goal 0 ben may still sign: needs 1 may_sign(ben)' "$out"
    try show "$folder/added.model"
    same 'version 1 has no such line' '' "$(grep persistent <<<"$out")"
    try count "$folder/persistent.model" "$folder/revoked.trace"
    same 'counting version 2' "model '$folder/persistent.model': 2 facts, 1 clause, 2 rules, 1 attack state
persistent facts: 1 may_sign(ben)
state 0, the initial one: 1 stored, 1 reached by closing in 1 round, 0 not reached
  stored:      0 mandate(ana)
  reached:     1 may_sign(ben) (round 1)
  not reached: none
state 1, after step 0, rule 0 sign: 1 stored, 1 reached by closing in 1 round, 0 not reached
  stored:      0 mandate(ana)
  reached:     1 may_sign(ben) (round 1)
  not reached: none
state 2, after step 1, rule 1 revoke: 0 stored, 0 reached by closing in 0 rounds, 2 not reached
  stored:      none
  reached:     none
  not reached: 0 mandate(ana), 1 may_sign(ben)
NOATTACK: all 2 steps fire, but goal 0 ben may still sign is not met in state 2: fact 1 may_sign(ben) is missing
NOATTACK step 2 fact 1 rounds 2 held 0 kind positive round none" "$out"
}

# Two facts, name 5 in use at first. Rule 0 makes 7 and 1023, rule 1 makes 5, rule 2 nothing; rule 3 needs fact 1, which
# isn't there, and makes 5 and 7.
two_facts="03 00000002 0002  00000002 0000  00000000  00000002 0005  00000000  0000003A
    0010 0001 0000 0000 0001 0000 0002 0007 03FF  000C 0000 0000 0001 0001 0001 0005  0008 0000 0000 0000 0000
    000E 0001 0001 0000 0000 0002 0005 0007  00000008 0006 0001 0000 0000"

# after STEPS LINE: the verdict on two_facts after some steps.
after() {
    local steps=$(tr -d ' ' <<<"$1")
    bytes "01 $(printf '%08x' $((2 + ${#steps} / 2))) 0000 $steps" >"$tmp/t.trace"
    try "$tmp/f.model" "$tmp/t.trace"
    same "two facts, after $1" "$2" "$out"
}

test_fresh_names() {
    bytes "$two_facts" >"$tmp/f.model"
    printf 'fact 0 open\nfact 1 shut\nname 7 nonce1\nname 5 old\n' >"$tmp/f.names"
    try show "$tmp/f.model"
    same 'version 3 as text' 'facts: 2
  0 open
  1 shut
initial facts: 0 open
persistent facts: none
names in use at the start: 5 old
clauses: 0
rules: 4
  rule 0: needs 0 open; adds 0 open; makes 7 nonce1, 1023
  rule 1: adds 1 shut; makes 5 old
  rule 2: no conditions
  rule 3: needs 1 shut; makes 5 old, 7 nonce1
attack states: 1
  goal 0: needs 0 open' "$out$err"
    after 0000 'ATTACK step 1 fact none rounds 0 held 1 kind none round none'
    after 0001 'USED step 0 fact 5 rounds 0 held 1 kind none round none'
    after 0003 'BLOCKED step 0 fact 1 rounds 0 held 1 kind positive round none'
    after '0000 0002 0000' 'USED step 2 fact 7 rounds 0 held 1 kind none round none'
    same 'USED has no second line' '' "$err"
    try count "$tmp/f.model" "$tmp/t.trace"
    same 'counting version 3' "model '$tmp/f.model': 2 facts, 0 clauses, 4 rules, 1 attack state
persistent facts: none
state 0, the initial one: 1 stored, 0 reached by closing in 0 rounds, 1 not reached, 1 name in use
  stored:      0 open
  reached:     none
  not reached: 1 shut
  in use:      5 old
state 1, after step 0, rule 0: 1 stored, 0 reached by closing in 0 rounds, 1 not reached, 3 names in use
  stored:      0 open
  reached:     none
  not reached: 1 shut
  made:        7 nonce1, 1023
  in use:      5 old, 7 nonce1, 1023
state 2, after step 1, rule 2: 1 stored, 0 reached by closing in 0 rounds, 1 not reached, 3 names in use
  stored:      0 open
  reached:     none
  not reached: 1 shut
  made:        none
  in use:      5 old, 7 nonce1, 1023
USED: step 2, rule 0, can't fire: name 7 nonce1 is in use
USED step 2 fact 7 rounds 0 held 1 kind none round none" "$out$err"
    try count "$root/samples/mandate/persistent.model"
    same 'version 2 has no names to show' '' "$(grep -E ' in use|made:' <<<"$out")"
    bytes "03 00000002 0000 00000000 00000000 000000C8 $(count_up 100) 00000000 00000000 00000006 0004 0000 0000" \
        >"$tmp/f.model"
    rm "$tmp/f.names"
    try show "$tmp/f.model"
    has 'all names in use are shown' ', 98, 99' "$(grep '^names in use' <<<"$out")"
    try count "$tmp/f.model"
    has 'names in use are counted' ', 100 names in use' "$out"
    has 'a long list of names is cut' '22, 23 and 76 more' "$(grep in.use: <<<"$out")"
    try count --all "$tmp/f.model"
    has 'or not' ', 98, 99' "$(grep in.use: <<<"$out")"
}

# Document 003's Table 2 with names: a group is made once, whoever makes it, and leaving it doesn't make it new again.
test_table2_fresh() {
    local folder=$root/samples/table2-fresh lines
    lines="NOATTACK step 1 fact 20 rounds 2 held 4 kind positive round none          a-moves
USED step 2 fact 2 rounds 3 held 4 kind none round none                   a-moves-back
ATTACK step 2 fact none rounds 3 held 4 kind none round none              a-moves-twice
USED step 1 fact 2 rounds 2 held 4 kind none round none                   b-makes-it-too
USED step 0 fact 1 rounds 1 held 4 kind none round none                   not-fresh"
    local count="5 traces with $folder/fresh.model: ATTACK 1, NOATTACK 1, USED 3; 0 not read"
    try night "$folder" --model "$folder/fresh.model"
    same 'the verdicts on Table 2 with names' "$lines"$'\n'"$count" "$out"
    same 'USED is no refusal: exit' 0 "$status"
    try night "$folder" --model "$folder/fresh.model" --limit 60
    same 'and within a limit' "$lines" "$(head -n 5 <<<"$out")"
    try night "$folder" --model "$folder/fresh.model" --only used
    same 'those alone whose name is in use' "$(grep ^USED <<<"$lines")"$'\n'"$count" "$out"
    try night "$folder" --model "$folder/fresh.model" --tsv
    same 'a row for a name in use' 'b-makes-it-too USED 1 2 2 4 none none trace 9 2' \
        "$(grep ^b- <<<"$out" | cut -f 1-11 | tr '\t' ' ')"
    try show "$folder/fresh.model"
    has 'the groups in use at the start' 'names in use at the start: 0 g1, 1 g2' "$out"
    has 'the group that a move makes' "rule 1 move(a,g1,g3): needs 0 mem(a,g1); not 16 deputy(a,a), 17 deputy(a,b); $(
        )adds 2 mem(a,g3); makes 2 g3" "$out"
    try count "$folder/fresh.model" "$folder/a-moves-back.trace"
    same 'the groups that a makes' '  made:        2 g3
  made:        3 g4' "$(grep made: <<<"$out")"
    same 'a group that a has left' "USED: step 2, rule 11 move(a,g4,g3), can't fire: name 2 g3 is in use" \
        "$(tail -n 2 <<<"$out" | head -n 1)"
    try count "$folder/fresh.model" "$folder/not-fresh.trace"
    has 'a group that was there at first' "USED: step 0, rule 0 move(a,g1,g2), can't fire: name 1 g2 is in use" "$out"
    mkdir "$tmp/bad"
    { head -c 27 "$folder/fresh.model"; bytes 0400; tail -c +30 "$folder/fresh.model"; } >"$tmp/bad/one.model"
    cp "$folder/a-moves.trace" "$tmp/bad/one.trace"
    try night "$tmp/bad"
    same 'a night with a name that is none' "$(printf '%-72s  one' "$(refused BADNAME)")
1 pair: BADNAME 1; 0 without a partner, 0 not read
refused: one: BADNAME: the model '$tmp/bad/one.model', bytes 27 to 30 (04 00 00 01), section names in use: $(
        )name 1024 stands in its list, and a name is at most 1023" "$out"
}

# What no attack state can say: the same two steps in either order, with the same last state.
test_past() {
    local folder=$root/samples/past lines text
    lines="NOATTACK step 3 fact none rounds 1 held 1 kind none round none            closed-again
ATTACK step 4 fact none rounds 3 held 2 kind none round none              closed-since
NOATTACK step 2 fact none rounds 1 held 2 kind none round none            opened-first
ATTACK step 2 fact none rounds 2 held 2 kind none round none              signed-first
NOATTACK step 2 fact none rounds 1 held 2 kind none round none            stayed-open"
    try night "$folder" --model "$folder/form.model"
    same 'the verdicts on the form' \
        "$lines"$'\n'"5 traces with $folder/form.model: ATTACK 2, NOATTACK 3; 0 not read" "$out"
    try night "$folder" --model "$folder/form.model" --limit 60
    same 'and within a limit' "$lines" "$(head -n 5 <<<"$out")"
    try night "$folder" --model "$folder/form.model" --tsv
    same 'a row for a formula that is true' 'opened-first NOATTACK 2 none 1 2 none none model 115 12' \
        "$(grep ^opened <<<"$out" | cut -f 1-11 | tr '\t' ' ')"
    text='Historically (signed implies Once opened)'
    local before='goal 1 nobody signed before the form was opened'
    try show "$folder/form.model"
    same 'version 4 as text' "attack states: 1
  goal 0 open and signed: needs 0 opened, 3 signed
formulas: 2
  $before: $text
  goal 2 the form stayed open since it was signed: not signed or (opened Since (signed and not Yesterday signed))" \
        "$(tail -n 5 <<<"$out")"
    try count "$folder/form.model" "$folder/signed-first.trace"
    same 'counting version 4' "model '$folder/form.model': 4 facts, 2 clauses, 4 rules, 1 attack state, 2 formulas
persistent facts: none
$before: $text
state 0, the initial one: 0 stored, 0 reached by closing in 0 rounds, 4 not reached, 0 names in use
  stored:      none
  reached:     none
  not reached: 0 opened, 1 signed(ana), 2 signed(ben), 3 signed
  in use:      none
  goal 1:      true
state 1, after step 0, rule 2 sign(ana): 1 stored, 1 reached by closing in 1 round, 2 not reached, 0 names in use
  stored:      1 signed(ana)
  reached:     3 signed (round 1)
  not reached: 0 opened, 2 signed(ben)
  made:        none
  in use:      none
  goal 1:      false
state 2, after step 1, rule 0 open: 2 stored, 1 reached by closing in 1 round, 1 not reached, 0 names in use
  stored:      0 opened, 1 signed(ana)
  reached:     3 signed (round 1)
  not reached: 2 signed(ben)
  made:        none
  in use:      none
  goal 1:      false
ATTACK: all 2 steps fire, and the formula of $before is false in state 2: $text
ATTACK step 2 fact none rounds 2 held 2 kind none round none" "$out$err"
    try count "$folder/form.model" "$folder/opened-first.trace"
    same 'a formula that stays true' 'true true true' "$(grep 'goal 1: ' <<<"$out" | grep -o '[a-z]*$' | xargs)"
    same 'how it ends' "NOATTACK: all 2 steps fire, but the formula of $before is true in state 2: $text" \
        "$(tail -n 2 <<<"$out" | head -n 1)"
    try count "$folder/form.model" "$folder/closed-since.trace" --formulas
    same 'all formulas in each state' "  goal 1:      true
  goal 2:      true
  goal 1:      true
  goal 2:      true
  goal 1:      true
  goal 2:      true
  goal 1:      true
  goal 2:      false
  goal 1:      true
  goal 2:      false" "$(grep '^  goal' <<<"$out")"
    same 'and each with its words, once' 2 "$(grep -c '^goal [12] ' <<<"$out")"
    try count "$folder/form.model"
    same 'without a trace no formula is asked for' '' "$(grep 'goal' <<<"$out")"
    try count --formulas "$folder/form.model"
    same 'unless all are' "  goal 1:      true"$'\n'"  goal 2:      true" "$(grep '^  goal' <<<"$out")"
    bytes '01 00000006 0000 0002 0000' >"$tmp/t.trace"
    try count "$folder/form.model" "$tmp/t.trace"
    same 'an attack state has no value' '' "$(grep '^  goal' <<<"$out")"
    same 'an attack state of version 4' 'ATTACK: all 2 steps fire, and goal 0 open and signed is met in state 2' \
        "$(tail -n 2 <<<"$out" | head -n 1)"
    bytes '01 00000006 0001 0002 0001' >"$tmp/t.trace"
    try count "$folder/form.model" "$tmp/t.trace"
    same 'a blocked trace: the states reached' $'  goal 1:      true\n  goal 1:      false' "$(grep '^  goal' <<<"$out")"
    same 'a blocked trace: its end' 'BLOCKED step 1 fact 0 rounds 1 held 1 kind positive round none' \
        "${out##*$'\n'}"
    try count "$desk" "$root/samples/A.trace" --formulas
    same 'a model without formulas' "$("$command" count "$desk" "$root/samples/A.trace")" "$out"
    # A formula and no attack state, and names that need quotes or say nothing.
    bytes "04 00000002 0004 00000000 00000000 00000000 00000000 00000000 00000000
        0000000E 000C 8001 0000 8002 0001 8000 0002" >"$tmp/n.model"
    printf 'fact 0 the form is open\nfact 1 x\nfact 2 x\nfact 3 Since\n' >"$tmp/n.names"
    try show "$tmp/n.model"
    same 'names in a formula' "  goal 0: 'the form is open' and (1 or not 2)" "${out##*$'\n'}"
    try count "$tmp/n.model" --formulas
    same 'a formula and no attack state' '  goal 0:      false' "${out##*$'\n'}"
    rm "$tmp/n.names"
}

# unfit LABEL REASON LINES [MODEL TEXT]: a names file that doesn't fit is told, and the numbers stand alone.
unfit() {
    cp "${4-$desk}" "$tmp/n.model"
    printf '%b' "$3" >"$tmp/n.names"
    try show "$tmp/n.model"
    same "$1: exit" 0 "$status"
    same "$1: told" "cantivorex: the names in '$tmp/n.names' are not used: $2" "$err"
    has "$1: not used" "${5-clause 0: 2 from 0, 1}" "$out"
}

test_names() {
    unfit 'a number twice' 'line 3: fact 0 has a name already, x' 'fact 0 x\nfact 1 y\nfact 0 z\n'
    unfit 'a fact that is not there' 'line 1: the model has no fact 6' 'fact 6 x\n'
    unfit 'a rule that is not there' 'line 1: the model has no rule 3' 'rule 3 x\n'
    unfit 'a goal that is not there' 'line 2: the model has no goal 2' '# goals\ngoal 2 x\n'
    unfit 'no text' 'byte 7 is not text' 'fact 0 \0377\n'
    unfit 'a character that moves the cursor' "line 1: it has a character that isn't plain text" 'fact 0 x\033[2J\n'
    local expected='line 1: expected fact, rule, goal or name, a number and what it is called'
    unfit 'no name' "$expected" 'fact 0\n'
    unfit 'no number' "$expected" 'fact +1 x\n'
    unfit 'another kind' "$expected" 'state 0 x\n'
    local fresh=("$root/samples/table2-fresh/fresh.model" 'in use at the start: 0, 1')
    unfit 'a name twice' 'line 2: name 3 has a name already, x' 'name 3 x\nname 3 x\n' "${fresh[@]}"
    unfit 'a name over 1,023' 'line 2: the model has no name 1024: a name is at most 1023' \
        'name 1023 x\nname 1024 y\n' "${fresh[@]}"
    unfit 'a name in version 1' 'line 1: the model has no name 0: there are names from version 3 on' 'name 0 x\n'
    unfit 'a name in version 2' 'line 2: the model has no name 0: there are names from version 3 on' \
        'fact 0 x\nname 0 x\n' "$root/samples/mandate/persistent.model" 'clause 0: 1 from 0'
    cp "$desk" "$tmp/n.model"
    printf 'fact 0 some clerk\r\n\n# no more\n' >"$tmp/n.names"
    try show "$tmp/n.model"
    has 'names with spaces, lines ended as elsewhere' 'clause 0: 2 from 0 some clerk, 1' "$out"
    rm "$tmp/n.names" && mkfifo "$tmp/n.names"
    try show "$tmp/n.model"
    has 'a pipe of names' "'$tmp/n.names' is not read: it is a pipe or a device" "$err"
    rm "$tmp/n.names"
}

# pair NAME CASE: the desk model and a sample trace under a name.
pair() {
    cp "$desk" "$tmp/night/$1.model"
    cp "$root/samples/$2.trace" "$tmp/night/$1.trace"
}

test_night() {
    local forged='ATTACK step 1 fact none rounds 4 held 4 kind none round none'
    mkdir "$tmp/night"
    try night "$tmp/night"
    says 'an empty folder' 1 'there is no model and no trace'
    pair only A
    try night "$tmp/night"
    same 'one pair' "ATTACK step 1 fact none rounds 4 held 4 kind none round none              only
1 pair: ATTACK 1; 0 without a partner, 0 not read" "$out"
    rm "$tmp"/night/*
    pair 'a b' B
    pair a A
    pair Z E
    pair a.1 C
    pair "$forged" G
    pair "x"$'\n'"$forged" G
    pair -dash D
    try night "$tmp/night"
    local why="bytes 5 to 6 (00 02), the goal: it names goal 2, and the model has goals 0 to 1"
    same 'all pairs: exit' 0 "$status"
    same 'all pairs: in order of names, which can pass for nothing else' "\
ATTACK step 1 fact none rounds 2 held 2 kind none round none              -dash
NAME step 0 fact none rounds 0 held 0 kind none round none                '$forged'
NOATTACK step 0 fact 0 rounds 2 held 3 kind negative round 0              Z
ATTACK step 1 fact none rounds 4 held 4 kind none round none              a
BLOCKED step 1 fact 5 rounds 2 held 2 kind positive round none            'a b'
BLOCKED step 1 fact 3 rounds 4 held 4 kind negative round 0               a.1
NAME step 0 fact none rounds 0 held 0 kind none round none                'x\\n$forged'
7 pairs: ATTACK 2, BLOCKED 2, NAME 2, NOATTACK 1; 0 without a partner, 0 not read
refused: '$forged': NAME: the trace '$tmp/night/$forged.trace', $why
refused: 'x\\n$forged': NAME: the trace '$tmp/night/x\\n$forged.trace', $why" "$out"
    same 'all pairs: no message' '' "$err"
    try night --only blocked --only ATTACK -- "$tmp/night"
    same 'some verdicts only' 4 "$(grep -cE '^(ATTACK|BLOCKED) ' <<<"$out")"
    has 'some verdicts only: all are counted' '7 pairs: ATTACK 2, BLOCKED 2, NAME 2, NOATTACK 1;' "$out"
    same 'some verdicts only: no others' '' "$(grep -E '^(NAME|NOATTACK) ' <<<"$out")"
}

# Gaps in the folder of the night before.
test_gaps() {
    rm "$tmp/night/a.trace" "$tmp/night/Z.model" "$tmp"/night/*ATTACK*
    mkdir "$tmp/night/m.model" "$tmp/night/old"
    : >"$tmp/night/m.trace"
    : >"$tmp/night/notes.txt"
    cp "$root/samples/desk.names" "$tmp/night/a.names"
    pair pipe A
    rm "$tmp/night/pipe.trace"
    mkfifo "$tmp/night/pipe.trace"
    pair lost A
    ln -sf nowhere "$tmp/night/lost.trace"
    try night "$tmp/night"
    same 'gaps: exit' 1 "$status"
    same 'gaps: each in its place' "ATTACK step 1 fact none rounds 2 held 2 kind none round none              -dash
no model                                                                  Z
no trace                                                                  a
BLOCKED step 1 fact 5 rounds 2 held 2 kind positive round none            'a b'
BLOCKED step 1 fact 3 rounds 4 held 4 kind negative round 0               a.1
not read                                                                  lost
not read                                                                  m
not read                                                                  pipe
6 pairs: ATTACK 1, BLOCKED 2; 2 without a partner, 3 not read
not read: lost: there is no file '$tmp/night/lost.trace'
not read: m: '$tmp/night/m.model' is a folder, not a file
not read: pipe: '$tmp/night/pipe.trace' is not read: it is a pipe or a device
without a partner: Z.trace, a.model" "$out"
    same 'gaps: another file is told' "cantivorex: left out, neither a model nor a trace: 'notes.txt'" "$err"
    try night "$tmp/nowhere"
    says 'no such folder' 2 "the folder '$tmp/nowhere' can't be read: No such file or directory"
    try night "$desk"
    says 'a file for a folder' 2 'Not a directory'
    try night
    says 'no folder named' 2 'usage: cantivorex night FOLDER'
    try night "$root/samples"
    same 'a folder of traces for one model: exit' 1 "$status"
    same 'a folder of traces for one model: what to type' \
        "to check all traces with the one model: cantivorex night $root/samples --model $desk" "${out##*$'\n'}"
}

test_one_model() {
    local name line expected=''
    while IFS='|' read -r name line; do
        expected+=$(printf '%-72s  %s' "$line" "$name")$'\n'
    done <<<"$desk_lines"
    try night "$root/samples" --model "$desk"
    same 'one model: exit' 0 "$status"
    expected+="7 traces with $desk: ATTACK 2, BLOCKED 2, NAME 1, NOATTACK 2; 0 not read"
    same 'one model for all traces' "$expected" "$(head -n 8 <<<"$out")"
    has 'one model: the refused one' "refused: G: NAME: the trace '$root/samples/G.trace'" "$out"
    same 'one model from a pipe' "${out//"$desk"/-}" "$("$command" night "$root/samples" --model=- <"$desk")"
    try night "$root/samples" --model "$tmp/nowhere"
    says 'a model that is missing' 2 "there is no file '$tmp/nowhere'"
}

test_tsv() {
    local version sums
    version=$("$command" --version)
    sums=$(sha256sum "$desk" "$root/samples/B.trace" | cut -c 1-64 | paste -s)
    mkdir "$tmp/tsv"
    cp "$desk" "$tmp/tsv/a"$'\t'"b.model"
    cp "$root/samples/B.trace" "$tmp/tsv/a"$'\t'"b.trace"
    { cat "$desk"; zeros 70000; } >"$tmp/tsv/c.model"
    : >"$tmp/tsv/c.trace"
    : >"$tmp/tsv/d.trace"
    try night "$tmp/tsv" --tsv
    same 'tsv: exit' 1 "$status"
    same 'tsv: every row has the same columns' 15 "$(awk -F '\t' '{ print NF }' <<<"$out" | sort -u)"
    same 'tsv: what they are' \
        'name verdict step fact rounds held kind round file start size model_sha256 trace_sha256 seconds checker' \
        "$(head -n 1 <<<"$out" | tr '\t' ' ')"
    same 'tsv: a verdict' "a\\tb"$'\t'"BLOCKED"$'\t1\t5\t2\t2\tpositive\tnone\ttrace\t9\t2\t'"$sums"$'\t'"$version" \
        "$(sed -n 2p <<<"$out" | cut -f 1-13,15)"
    same 'tsv: a file over its size has no sum' \
        "c LONG 0 none 0 0 none none model 0 65537 - $(sha256sum </dev/null | cut -c 1-64)" \
        "$(sed -n 3p <<<"$out" | cut -f 1-13 | tr '\t' ' ')"
    same 'tsv: no pair' "d no model - - - - - - - - - - -" "$(sed -n 4p <<<"$out" | cut -f 1-13 | tr '\t' ' ')"
    has 'tsv: the count goes elsewhere' '2 pairs: BLOCKED 1, LONG 1; 1 without a partner, 0 not read' "$err"
    err=$(PATH=$tmp "$program" night "$tmp/tsv" --tsv 2>&1 >/dev/null)
    same 'tsv without sha256sum: exit' 1 $?
    has 'tsv without sha256sum: the message' 'there is no SHA-256' "$err"
}

# 200 pairs of twelve steps: eleven times r2 and then r0. Each r2 leaves the desk's first state, so that there are 13
# states of 2 rounds. The time is shown and not judged: it says as much of the machine as of the command.
test_two_hundred() {
    local i from to
    mkdir "$tmp/many"
    for ((i = 0; i < 200; i++)); do
        cp "$desk" "$tmp/many/$i.model"
        bytes "01 0000001A 0000 $(repeat 11 0002) 0000" >"$tmp/many/$i.trace"
    done
    from=$(date +%s%N)
    try night "$tmp/many"
    to=$(date +%s%N)
    printf 'measured: 200 pairs of twelve steps in %s ms\n' $(((to - from) / 1000000))
    same '200 pairs: exit' 0 "$status"
    same '200 pairs: the lines' '200 ATTACK step 12 fact none rounds 26 held 4 kind none round none' \
        "$(head -n 200 <<<"$out" | cut -c 1-62 | sort | uniq -c | tr -s ' ' | sed 's/^ //')"
    same '200 pairs: the names' "$(seq 0 199 | LC_ALL=C sort)" "$(head -n 200 <<<"$out" | cut -c 75-)"
    same '200 pairs: the count' '200 pairs: ATTACK 200; 0 without a partner, 0 not read' "${out##*$'\n'}"
    "$command" night "$tmp/many" >"$tmp/first" &
    "$command" night "$tmp/many" >"$tmp/second"
    wait $!
    same 'two at once' "$out$out" "$(<"$tmp/first")$(<"$tmp/second")"
}

# A limit that nothing can keep, and one that everything keeps.
test_limit() {
    try night "$root/samples" --model "$desk" --limit 0.000001
    same 'a limit passed: exit' 1 "$status"
    same 'a limit passed: the lines' '7 not answered within 0.000001 s' \
        "$(head -n 7 <<<"$out" | cut -c 1-30 | sort | uniq -c | tr -s ' ' | sed 's/^ //')"
    same 'a limit passed: the names' 'not answered within 0.000001 s: A, B, C, D, E, F, G' "${out##*$'\n'}"
    has 'a limit passed: the count' '7 traces with '"$desk"'; 0 not read, 7 not answered within 0.000001 s' "$out"
    try night "$tmp/many" --limit 30
    same 'a limit kept: exit' 0 "$status"
    same 'a limit kept: the count' \
        '200 pairs: ATTACK 200; 0 without a partner, 0 not read, 0 not answered within 30 s' "${out##*$'\n'}"
}

# A trace that takes more than a second to be opened, on a terminal and elsewhere.
test_progress() {
    cat >"$tmp/slow.c" <<'CODE'
#define _GNU_SOURCE
#include <fcntl.h>
#include <string.h>
#include <sys/syscall.h>
#include <unistd.h>

int open64(const char *path, int flags, ...) {
    if (strstr(path, "slow.trace"))
        usleep(1300000);
    return syscall(SYS_openat, AT_FDCWD, path, flags, 0);
}
CODE
    gcc -shared -fPIC -o "$tmp/slow.so" "$tmp/slow.c" || { same 'the slow opening is compiled' yes no; return; }
    mkdir "$tmp/slow"
    cp "$root/samples/A.trace" "$tmp/slow/quick.trace"
    cp "$root/samples/A.trace" "$tmp/slow/slow.trace"
    local run="env LD_PRELOAD=$tmp/slow.so $program night $tmp/slow --model $desk"
    err=$($run 2>&1 >/dev/null)
    same 'a slow pair is told' 'cantivorex: slow took 1.3 s' "$err"
    out=$(script -qec "$run" /dev/null </dev/null)
    has 'a terminal sees how far it is' '1 of 2 done in 1 s, waiting for slow' "$out"
}

# as_nobody WORD..: without the rights of the superuser, whom no mode stops.
as_nobody() {
    if [ "$(id -u)" -eq 0 ]; then
        setpriv --reuid=65534 --regid=65534 --clear-groups "$@"
    else
        "$@"
    fi
}

test_rights() {
    local folder=$tmp/rights
    chmod 755 "$tmp"
    mkdir "$folder" "$folder/closed"
    cp "$program" "$folder/program"
    cp "$desk" "$folder/desk.model"
    cp "$root/samples/A.trace" "$folder/open.trace"
    cp "$root/samples/A.trace" "$folder/shut.trace"
    chmod 000 "$folder/closed" "$folder/shut.trace"
    err=$(as_nobody "$folder/program" night "$folder/closed" 2>&1)
    same 'a folder without rights: exit' 2 $?
    has 'a folder without rights: the message' "the folder '$folder/closed' can't be read: Permission denied" "$err"
    err=$(as_nobody "$folder/program" "$folder/desk.model" "$folder/shut.trace" 2>&1)
    same 'a file without rights: exit' 2 $?
    has 'a file without rights: the message' "'$folder/shut.trace' can't be read: Permission denied" "$err"
    out=$(as_nobody "$folder/program" night "$folder" --model "$folder/desk.model" 2>/dev/null)
    same 'a file without rights in a night: exit' 1 $?
    has 'a file without rights in a night' "shut: '$folder/shut.trace' can't be read: Permission denied" "$out"
    chmod 755 "$folder/closed"
}

# A copy of bin/ without the program, and builders that put it there or fail.
test_building() {
    local copy=$tmp/copy
    mkdir -p "$copy/tools" "$copy/crates/one/src" "$copy/crates/exports/src" "$copy/command/src"
    cp -R "$root/bin" "$copy/bin"
    ln -s "$copy/bin/cantivorex" "$tmp/elsewhere"
    stub rt 'mkdir -p out && : >out/libexports.a'
    stub cargo "sleep 0.5; mkdir -p command/target/release && cp '$program' command/target/release/"
    command=$tmp/elsewhere PATH=$copy/tools:$PATH
    ("$command" "$desk" "$root/samples/A.trace" >"$tmp/first" 2>"$tmp/first.err") &
    try "$desk" "$root/samples/A.trace"
    wait $!
    local line='ATTACK step 1 fact none rounds 4 held 4 kind none round none'
    same 'two first runs at once: both answer' "$line $line" "$out $(<"$tmp/first")"
    same 'two first runs at once: one builds, one waits' \
        $'cantivorex: building, once, some minutes\ncantivorex: waiting for another build' \
        "$(printf '%s\n' "$err" "$(<"$tmp/first.err")" | sort)"
    same 'what is built' $'cargo build\nrt lib' "$(sort "$copy/built")"
    try "$desk" "$root/samples/A.trace"
    same 'and then it is taken as it is' "$line" "$out$err"
    sleep 0.01
    : >"$copy/crates/one/src/new.rt"
    try "$desk" "$root/samples/A.trace"
    same 'a program older than a source is built again' 'cantivorex: building, once, some minutes' "$err"
    try "$desk" "$root/samples/A.trace"
    same 'but once' '' "$err"
    : >"$copy/built"
    : >"$copy/command/src/new.rs"
    stub cargo 'echo the reason; exit 1'
    try "$desk" "$root/samples/A.trace"
    same 'a library that is new is taken as it is' 'cargo build' "$(<"$copy/built")"
    same 'what cannot be built: exit' 1 "$status"
    same 'what cannot be built: no line' '' "$out"
    same 'what cannot be built: the build shows why' \
        "cantivorex: building, once, some seconds
some output
the reason
cantivorex: it could not be built: see the lines above" "$err"
}

# stub TOOL WORK: a tool that says something, notes that it was called, and does some work.
stub() {
    printf '#!/bin/sh\necho some output\necho %s "$1" >>"%s"\n%s\n' "$1" "$copy/built" "$2" >"$copy/tools/$1"
    chmod +x "$copy/tools/$1"
}

# Built before anything is timed.
"$command" --version >/dev/null || exit 1
test_lines
test_long
test_version
test_shape
test_count_number
test_fact_order
test_name
test_persistent
test_names_in_use
test_names_made
test_formula_records
test_usage
test_help
test_exit_verdict
test_files
test_lost_output
test_show_and_count
test_rules
test_holds
test_table2
test_tasks
test_mandate
test_fresh_names
test_table2_fresh
test_past
test_names
test_night
test_gaps
test_one_model
test_tsv
test_two_hundred
test_limit
test_progress
test_rights
# The last, since it changes what the command is.
test_building
summary
