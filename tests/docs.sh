#!/usr/bin/env bash
# Runs every command in README.md and docs/GUIDE.md that stands behind '$ ', and compares what it prints with the lines
# under it. Looks up every name in backquotes in the tables of docs/PROMISES.md and docs/ARCHITECTURE.md.
set -uo pipefail
cd "$(dirname "${BASH_SOURCE[0]}")/.." || exit 1
passed=0
failed=0

# run COMMAND EXPECTED: one command of a page
run() {
    local got
    got=$(bash -c "$1" 2>&1)
    if [ "$got" = "$2" ]; then
        passed=$((passed + 1))
    else
        failed=$((failed + 1))
        printf 'FAILED: %s\nexpected: %s\ngot: %s\n' "$1" "$2" "$got"
    fi
}

for page in README.md docs/GUIDE.md; do
    command='' expected=''
    while IFS= read -r line || [ -n "$line" ]; do
        if [[ $line == '    $ '* ]]; then
            [ -z "$command" ] || run "$command" "$expected"
            command=${line#'    $ '} expected=''
        elif [ -n "$command" ] && [[ $line == '    '* ]]; then
            expected+=${expected:+$'\n'}${line#'    '}
        elif [ -n "$command" ]; then
            run "$command" "$expected"
            command=''
        fi
    done <"$page"
    [ -z "$command" ] || run "$command" "$expected"
done

# names: what a table may name. Each path and each end of one; each function by its crate and file; each word of the
# code outside comments.
names() {
    find bin boundary command crates docs include samples second tests -name target -prune -o -print |
        awk '{ do print; while (sub("^[^/]*/", "")) }'
    awk 'match($0, /(fn|struct|enum|const) [[:alnum:]_]+/) {
        item = substr($0, RSTART, RLENGTH)
        split(FILENAME, at, /[\/.]/)
        print at[2] "::" (at[4] == "lib" ? "" : at[4] "::") substr(item, index(item, " ") + 1)
    }' crates/*/src/*.rt
    find crates/*/{src,specs,proofs} boundary command second include -name target -prune -o \
        -name '*.antt' -exec cat {} + -o -name '*.r[st]' -exec cat {} + -o -name '*.[ch]' -exec cat {} + |
        grep -vE '^ *(--|//)' | tr -s '][(){},;:"`[:space:]' '\n' | sed 's/^\.//'
}

known=$(names | sort -u)
for page in docs/PROMISES.md docs/ARCHITECTURE.md; do
    while IFS= read -r name; do
        if grep -qxF -- "${name%/}" <<<"$known"; then
            passed=$((passed + 1))
        else
            failed=$((failed + 1))
            printf 'FAILED: %s names %s, which is not there\n' "$page" "$name"
        fi
    done < <(grep '^|' "$page" | awk -F '`' '{ for (i = 2; i < NF; i += 2) print $i }' | sort -u)
done

printf '%s passed, %s failed\n' "$passed" "$failed"
[ "$failed" -eq 0 ] && [ "$passed" -gt 0 ]
