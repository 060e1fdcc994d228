# What the tests share: a temporary folder, checks that count, files made of hex digits.
root=$(cd "$(dirname "${BASH_SOURCE[0]}")/.." && pwd)
desk=$root/samples/desk.model
tmp=$(mktemp -d) || exit 1
trap 'rm -rf "$tmp"' EXIT
passed=0
failed=0

# same LABEL EXPECTED ACTUAL
same() {
    if [ "$2" == "$3" ]; then
        passed=$((passed + 1))
    else
        failed=$((failed + 1))
        printf 'FAILED %s\n  expected: %s\n  actual:   %s\n' "$1" "$2" "$3"
    fi
}

# has LABEL PART TEXT: the text has the part in it.
has() {
    case $3 in
        *"$2"*) same "$1" yes yes ;;
        *) same "$1" "something with '$2'" "$3" ;;
    esac
}

# bytes HEX..: those bytes; spaces are for the reader.
bytes() {
    local hex=$*
    printf "$(sed 's/../\\x&/g' <<<"${hex//[[:space:]]/}")"
}

# zeros N: so many zero bytes.
zeros() {
    head -c "$1" /dev/zero
}

refused() {
    printf '%s step 0 fact none rounds 0 held 0 kind none round none' "$1"
}

# Document 01's table of traces on the desk model, with document 02's kind and round.
desk_lines='A|ATTACK step 1 fact none rounds 4 held 4 kind none round none
B|BLOCKED step 1 fact 5 rounds 2 held 2 kind positive round none
C|BLOCKED step 1 fact 3 rounds 4 held 4 kind negative round 0
D|ATTACK step 1 fact none rounds 2 held 2 kind none round none
E|NOATTACK step 0 fact 0 rounds 2 held 3 kind negative round 0
F|NOATTACK step 1 fact 3 rounds 4 held 3 kind positive round none
G|NAME step 0 fact none rounds 0 held 0 kind none round none'

# The last line, and the exit.
summary() {
    printf '%s passed, %s failed\n' "$passed" "$failed"
    [ "$failed" -eq 0 ]
}
