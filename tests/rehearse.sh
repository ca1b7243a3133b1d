#!/usr/bin/env bash
# Runs `rehearse` on what no stored input shows: lines of megabytes, ends of lines, answers before the next line, arguments.
# The program has to be built; `./check` does that first.
set -u
cd "$(dirname "$0")/.." || exit 1
rehearse=$PWD/crates/rehearse/out/rehearse
scratch=$(mktemp -d) || exit 1
trap 'rm -rf "$scratch"' EXIT

passed=0
failed=0

# same NAME EXPECTED FOUND
same() {
    if [[ $2 == "$3" ]]; then
        passed=$((passed + 1))
        printf 'ok %s\n' "$1"
    else
        failed=$((failed + 1))
        printf 'FAILED %s\n  expected: %q\n  found:    %q\n' "$1" "$2" "$3"
    fi
}

# of COUNT BYTE: so many times the byte
of() {
    head -c "$1" /dev/zero | tr '\0' "$2"
}

# --- lines of megabytes
found=$({ of 5000000 x; printf '\nformat 1024 7\n'; } | "$rehearse")
same 'a line of five megabytes is answered, and so is the next' $'error: the line is too long\nok' "$found"

found=$({ printf 'format 1024 7\npower '; of 2000000 0; printf '\nfree\n'; } | "$rehearse")
same 'two million bits are read' $'ok\nerror: not yet\nok 510' "$found"

found=$({ printf '#'; of 3000000 ' '; printf '\nfree\n'; of 3000000 ' '; printf 'free'; } | "$rehearse")
same 'a remark may be as long as it likes, and blanks may not' $'error 8: no volume on the device\nerror: the line is too long' "$found"

# 300 megabytes without an end of a line, in 64 megabytes of memory
found=$( (ulimit -v 65536; of 300000000 y | "$rehearse"; printf 'status %d' "${PIPESTATUS[1]}") 2>&1)
same 'a line of 300 megabytes takes no more memory' $'error: the line is too long\nstatus 0' "$found"

# --- the ends of lines, and of the input
found=$(printf 'format 1024 7\r\nfree\r\n\r\nfree' | "$rehearse")
same 'lines may end in return and newline, and the last needs no end' $'ok\nok 510\nok 510' "$found"

found=$(printf '' | "$rehearse"; printf 'status %d' $?)
same 'an empty input ends well' 'status 0' "$found"

found=$(printf '\n\n' | "$rehearse"; printf 'status %d' $?)
same 'empty lines have no answer' 'status 0' "$found"

found=$(printf 'free\0\nfree\n' | "$rehearse")
same 'a zero byte is no blank' $'error: no such command\nerror 8: no volume on the device' "$found"

# --- each answer is out before the next line is waited for
mkfifo "$scratch/in" "$scratch/out"
"$rehearse" <"$scratch/in" >"$scratch/out" &
exec 3>"$scratch/in" 4<"$scratch/out"
found=
for line in 'format 2048 1' 'free' 'frees'; do
    printf '%s\n' "$line" >&3
    if IFS= read -r -t 20 answer <&4; then
        found+="$answer;"
    else
        found+='nothing;'
    fi
done
printf 'fr' >&3
sleep 0.1
printf 'ee\n' >&3
IFS= read -r -t 20 answer <&4 && found+="$answer;"
exec 3>&-
wait $!
found+="status $?"
exec 4<&-
same 'each answer comes before the next line is sent' 'ok;ok 1534;error: no such command;ok 1534;status 0' "$found"

# --- whatever the bytes are, each line has one answer, and the program ends well
head -c 300000 /dev/urandom >"$scratch/noise"
"$rehearse" <"$scratch/noise" >"$scratch/answers"
found="status $? $(LC_ALL=C grep -avc '^error: \|^error 8: ' "$scratch/answers")"
same 'noise gets errors and nothing else' 'status 0 0' "$found"

# --- arguments
found=$("$rehearse" --version; printf 'status %d' $?)
same 'the version' $'rehearse 0.1.0\nstatus 0' "$found"

found=$("$rehearse" --help; printf 'status %d' $?)
same 'the help' "${found%%$'\n'*}" 'usage: rehearse'
same 'the help ends well' 'status 0' "${found##*$'\n'}"

found=$("$rehearse" nonsense 2>/dev/null; printf 'status %d' $?)
same 'an argument that it does not know is an error' 'status 1' "$found"

# --- an output that is closed
found=$( (printf 'format 1024 7\nfree\n' | "$rehearse" 2>"$scratch/said" >&-; printf 'status %d' "${PIPESTATUS[1]}") )
same 'an output that is closed ends it with status 1' 'status 1' "$found"

printf '%d passed, %d failed\n' "$passed" "$failed"
((failed == 0))
