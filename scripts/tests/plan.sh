# Tests of the program `plan` and of scripts/plan; to be sourced by scripts/test.

# THE PROGRAM `plan`, as the gate has built it

# plan_writes TAPE EXPECTED
plan_writes() {
    "$plan" < "$1" | cmp - "$2"
}

# repeated COUNT OCTAL: a byte, many times
repeated() {
    head -c "$1" /dev/zero | tr '\0' "\\$2"
}

# word NUMBER: sets word to its two bytes, as an escape
word() {
    printf -v word '\\x%02x\\x%02x' $(($1 % 256)) $(($1 / 256))
}

# puts COUNT: puts of the tabs from 1 on
puts() {
    local tab word tape=
    for ((tab = 1; tab <= $1; tab++)); do
        word "$tab"
        tape+=\\x01$word
    done
    printf '%b' "$tape"
}

# joins BYTE TAB TAB..: joins of the first tab with each further one, by the command of that byte
joins() {
    local tab word command=\\x$1 tape=
    word "$2"
    command+=$word
    for tab in "${@:3}"; do
        word "$tab"
        tape+=$command$word
    done
    printf '%b' "$tape"
}

# ring TAB..: a ring cut, by the first and the second tab of each crossing
ring() {
    local tab word tape
    printf -v tape '\\x08\\x%02x' $(($# / 2))
    for tab; do
        word "$tab"
        tape+=$word
    done
    printf '%b' "$tape"
}

# changes COUNT: tab 4,096 put and taken out in turn, with a report after each
changes() {
    local i tape=
    for ((i = 0; i < $1; i++)); do
        tape+="\\x0$((1 + i % 2))\\x00\\x10\\x07"
    done
    printf '%b' "$tape"
}

# ends_in LINES LAST: what `plan` writes of standard input, within 20 seconds
ends_in() {
    local log
    log=$(mktemp)
    timeout 20 "$plan" > "$log" || return 1
    [ "$(wc -l < "$log") $(tail -n 1 "$log")" = "$1 $2" ]
    local same=$?
    rm -f "$log"
    return $same
}

# writes LINES..: what `plan` writes of standard input, within 20 seconds; LINES are a count and a line of which there
# are so many after one another
writes() {
    local written
    written=$(timeout 20 "$plan" | uniq -c | sed 's/^ *//')
    printf '%s\n' "$written"
    [ "$written" = "$(printf '%s\n' "$@")" ]
}

long_tape_refused() {
    [ "$(repeated 65537 007 | "$plan")" = "refused 1" ]
}

longest_tape_played() {
    repeated 65536 007 | ends_in 65536 "0 0 0 0 0 0 0 0"
}

many_reports() {
    { puts 4096; repeated 53248 007; } | ends_in 57344 "4096 4096 4096 4096 4096 8192 0 0"
}

many_changes() {
    { puts 4095; changes 13312; } | ends_in 30719 "4095 4095 4095 4095 4095 8190 0 0"
}

# piece TAB..: these tabs in one tie and in one cell. They have one gap where their number is odd, else two.
piece() {
    joins 03 "$@"
    joins 05 "$@"
}

# No plan has a smaller characteristic.
least_characteristic() {
    { puts 4096; piece $(seq 4096); repeated 1 007; } | writes "12286 ok" "1 4096 1 1 2 1 -4092 2047 1"
}

# 999 pieces of three tabs and one of the other 1,099: every number of the report has four digits, and the only one that
# can have a minus has it. No report has a longer line. The tape has 65,536 bytes.
longest_reports() {
    local first
    {
        puts 4096
        for ((first = 1; first < 2998; first += 3)); do
            piece "$first" $((first + 1)) $((first + 2))
        done
        piece $(seq 2998 4096)
        repeated 22288 007
    } | writes "10288 ok" "22288 4096 1000 1000 1000 1000 -1096 1548 1000"
}

# Two cells, held together by 255 ties of two tabs. They run in opposite rounds, so the piece is flat; the ring goes
# through all ties and parts it.
longest_ring() {
    local tab
    {
        puts 510
        for ((tab = 1; tab < 510; tab += 2)); do
            joins 03 "$tab" $((tab + 1))
        done
        joins 05 1 $(seq 509 -2 3)
        joins 05 2 $(seq 4 2 510)
        repeated 1 007
        ring $(seq 510)
        repeated 1 007
    } | writes "1273 ok" "1 510 255 2 255 1 2 0 1" "1 ok" "1 510 510 2 2 2 4 0 2"
}

# Each refusal that a tape can meet, but for its length: 1 and 2 are of tables, 14 of buffers.
refusals_stored() {
    local number
    for number in 03 04 05 06 07 08 09 10 11 12 13 15 16; do
        [ "$(tail -n 1 examples/refusals/$number-*.expected)" = "refused ${number#0}" ] ||
            { echo "no tape ends in refusal $number"; return 1; }
    done
}

# THE SCRIPT `plan`: its exit status, what it writes, and what it says on standard error

# ends_with STATUS COMMAND..
ends_with() {
    local expected=$1 status=0
    shift
    "$@" > target/written 2> target/said || status=$?
    echo "status $status"
    cat target/said
    [ "$status" = "$expected" ]
}

# plays STATUS EXPECTED COMMAND..: writes what the file EXPECTED has, and says nothing
plays() {
    ends_with "$1" "${@:3}" && cmp target/written "$2" && [ ! -s target/said ]
}

# fails_saying MESSAGE COMMAND..: status 2, and nothing written
fails_saying() {
    ends_with 2 "${@:2}" && grep -qF -- "$1" target/said && [ ! -s target/written ]
}

from_closed_input() {
    "$@" <&-
}

to_closed_output() {
    "$@" >&-
}

to_full_disk() {
    "$@" > /dev/full
}

# with_failing_proof COMMAND..: where `rt` fails
with_failing_proof() {
    mkdir -p target/failing
    printf '#!/bin/sh\necho "not proved: $*"\nexit 1\n' > target/failing/rt
    chmod +x target/failing/rt
    PATH=$PWD/target/failing:$PATH "$@"
}

long_tape_status() {
    repeated 65537 007 | ends_with 1 scripts/plan && [ "$(cat target/written)" = "refused 1" ]
}

help_written() {
    ends_with 0 scripts/plan --help && grep -q '^usage: ' target/written && [ ! -s target/said ]
}
