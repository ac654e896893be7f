#!/usr/bin/env bash
# The part `runs` of bench/run, which sources it: what `abs` takes for a run, for each of its events. Its sources come from
# run_sources.sh, and show_run counts their events. bench/run says what the rows have.

# How many events the run of a source has, as show_run counts them.
events_of() {
    "$run_program" history "$1" | tr ' ' '\n' | awk -F '*' '{ events += $1 } END { print events }'
}

runs_row() {
    printf '%9s  %9s  %7s  %7s  %24s  %18s  %16s  %10s\n' "$@"
}

# Prints the rows of a family of runs with the given numbers of parts, and how many times the instructions for each event
# of the first the last one takes: its name, that of its parts, how many tasks and events the run of a source with `n`
# parts has, and the numbers.
runs_family() {
    local name=$1 parts=$2 tasks=$3 events=$4 n source count each first= peak bytes
    echo
    echo "$name"
    runs_row bytes "$parts" tasks events "instructions:$counter" instructions/event "peak-KiB:${sizer##*/}" bytes/task
    for n in "${@:5}"; do
        source=$room/${name%%:*}_$n.abs bytes=-
        "${name%%:*}_of" "$n" >"$source"
        [[ $("$program" "$source" | tail -n 1) == "done: $((tasks)) tasks" && $(events_of "$source") == $((events)) ]] ||
            give_up "the source of ${name%%:*} with $n parts did not run to its end with $((events)) events"
        count=$(instructions_of "$program" "$source")
        each=$(for_each "$(difference "${count:--}" "$empty_count")" "$((events))")
        peak=$(peak_of "$program" "$source")
        ((tasks < 100)) || bytes=$(difference "$peak" "$empty_peak")
        [[ $bytes == - ]] || bytes=$(for_each $((1024 * bytes)) "$((tasks))")
        runs_row "$(bytes_of "$source")" "$n" "$((tasks))" "$((events))" "${count:--}" "$each" "$peak" "$bytes"
        first=${first:-$each}
    done
    echo "for each event, the last one beside the first: $(quotient "$each" "$first")"
}

# The least user time of ten runs of a command, in seconds.
least_seconds_of() {
    for _ in 1 2 3 4 5 6 7 8 9 10; do seconds_of "$@"; done | sort -n | head -n 1
}

# The user time of so many puts, without that to start: the number of puts, and a command with `PUTS` in its place.
puts_seconds_of() {
    local puts=$1 command=("${@:2}") all none
    all=$(least_seconds_of "${command[@]/PUTS/$puts}") none=$(least_seconds_of "${command[@]/PUTS/0}")
    awk -v all="$all" -v none="$none" 'BEGIN { printf "%.3f", all - none }'
}

# Prints the user time of so many puts into a buffer that keeps their sum, and beside it that of other languages.
compare_puts() {
    local puts=$1 n own other
    for n in 0 "$puts"; do sum_puts_of "$n" >"$room/puts_$n.abs"; done
    own=$(puts_seconds_of "$puts" "$program" "$room/puts_PUTS.abs")
    echo "user time of $puts puts: $own s"
    if [[ -n $python ]]; then
        other=$(puts_seconds_of "$puts" "$python" "$root/bench/buffer_asyncio.py" PUTS)
        echo "  in asyncio of Python: $other s, of which abs takes $(quotient "$own" "$other")"
    fi
    if type -P erl >/dev/null && erlc -o "$room" "$root/bench/buffer.erl"; then
        other=$(puts_seconds_of "$puts" erl +S 1 -noinput -pa "$room" -run buffer main PUTS)
        echo "  in Erlang: $other s, of which abs takes $(quotient "$own" "$other")"
    fi
}

echo "{ }" >"$room/no_statement.abs"
"$program" "$room/no_statement.abs" >/dev/null || give_up "the program ended with status $? for the empty program"
empty_count=$(instructions_of "$program" "$room/no_statement.abs") empty_count=${empty_count:--}
empty_peak=$(peak_of "$program" "$room/no_statement.abs")
echo
echo "runs: what a run takes, over the empty program with $empty_count instructions and $empty_peak KiB"
runs_family "counting: a loop that counts" turns 1 '2 * n + 4' 5000 49000
runs_family "sum_puts: two workers, and a buffer that keeps a sum" puts 'n + 3' '9 * n + 13' 1000 10000
compare_puts 10000
runs_family "list_puts: two workers, and a buffer that keeps a list" puts 'n + 3' '9 * n + 13' 490 4900
runs_family "messages: numbers sent to one object" messages 'n + 1' '6 * n + 5' 1200 12000
runs_family "one_future: tasks of one cog that await one future" tasks 'n + 2' '8 * n + 11' 900 9000
runs_family "own_futures: tasks of one cog that await a future each" tasks '2 * n + 2' '13 * n + 6' 400 4000
runs_family "mixed_futures: such tasks, whose futures all come before" tasks '2 * n + 1' '17 * n + 10' 400 4000
runs_family "active: active objects, each in a cog of its own" objects 'n + 1' '6 * n + 4' 1000 12000
runs_family "turns_in_one_cog: tasks that suspend in turn" tasks 'n + 1' '47 * n + 4' 200 2000
runs_family "turns_in_own_cogs: tasks that suspend in turn, each in a cog of its own" tasks 'n + 1' '47 * n + 4' 200 2000
runs_family "deep: a call on this that calls itself" levels 2 '4 * n + 7' 2000 20000
runs_family "printed_lines: strings of 100 bytes" lines 1 '3 * n + 4' 3000 30000
