#!/usr/bin/env bash
# The part `options` of bench/run, which sources it: what reading the words takes, the text of a generated program, the
# trace of a run, and the analysis and the run of generated programs.

options_row() {
    printf '%-60s  %26s  %12s\n' "$@"
}

# What a command takes more than another one, and that for each of a number of parts: its name, the number, the command,
# `--` and the other command.
measure_more() {
    local name=$1 number=$2 command=() count
    shift 2
    while [[ $1 != "--" ]]; do
        command+=("$1")
        shift
    done
    count=$(difference "$(instructions_of "${command[@]}")" "$(instructions_of "${@:2}")")
    options_row "$name" "$count" "$(for_each "$count" "$number")"
}

source=$room/empty_main.abs
echo "{ }" >"$source"
all=(--trace --workers 4 --depth 1 --steps 100000 --facts 1000000)
"$program" "${all[@]}" "$source" >/dev/null || give_up "the program ended with status $? with all options"

echo
echo "options: an empty main block, and the bytes of the program"
options_row call "instructions:$counter" ""
options_row "abs FILE" "$(instructions_of "$program" "$source")" ""
options_row "abs ${all[*]} FILE" "$(instructions_of "$program" "${all[@]}" "$source")" ""
options_row "bytes of the program" "$(bytes_of "$program")" ""

loop=$room/loop.abs
echo "{ while (True) { suspend; } }" >"$loop"
[[ $("$program" --trace "$loop" | wc -l) == 100003 ]] || give_up "the trace of a loop has not 100,000 events"
text=$("$show_program" made 2000 | wc -c)

echo
echo "options: a trace and a text"
options_row what "instructions:$counter" "for each"
measure_more "the trace of 100,000 events, for each" 100000 "$program" --trace "$loop" -- "$program" "$loop"
measure_more "the text of 2,000 classes, for each byte" $((text - 301)) "$show_program" made 2000 -- "$show_program" made 1

echo
echo "made: generated programs, from their text to their end, for each class over the program of one"
options_row call "instructions:$counter" "for each"
for classes in 20 200 2000; do
    "$program" --make "$classes" >/dev/null || give_up "the program ended with status $? for $classes classes"
    for words in "--check --make" "--make"; do
        # (the words are several)
        # shellcheck disable=SC2086
        measure_more "abs $words $classes" $((classes - 1)) "$program" $words "$classes" -- "$program" $words 1
    done
done
