#!/usr/bin/env bash
# The part `whole_analysis` of bench/run, which sources it: what the analysis takes on families that are made to hurt, for
# each fact and each pair. Their sources come from sources.sh and analysis_sources.sh, and tests/families has how many
# facts and pairs small ones have. bench/run says what the rows have.

whole_row() {
    printf '%7s  %9s  %8s  %7s  %6s  %11s  %11s  %11s  %8s  %8s  %9s  %8s  %6s  %13s  %10s  %10s\n' "$@"
}

# The difference of two numbers, the greater one first, for each of so many parts. It is multiplied by the fourth number,
# where there is one.
share_of() {
    local difference
    difference=$(difference "${1:--}" "${2:--}")
    if [[ $difference == - || $3 == 0 ]]; then echo -; else for_each $((difference * ${4:-1})) "$3"; fi
}

# The least stack in KiB, of the multiples of 64, for the whole analysis of a source.
whole_stack_of() {
    least_stack_of "$analysis_program" chained "$1" 2>/dev/null
}

# The instructions of show_analysis with these words. Of an analysis whose user time, the first argument, is over six
# seconds nothing is counted, and it is shown as -, since callgrind takes fifty times as long.
counted_of() {
    local count=-
    [[ ! $1 =~ ^[0-5]\. ]] || count=$(instructions_of "$analysis_program" "${@:2}")
    echo "${count:--}"
}

# Prints the row of a source of the analysis: it, the depth, its numbers, and how many facts, pairs and chains it has.
# Sets `shares` to the instructions: of the facts for each, of pairs and chains for each pair, and of all for each fact and
# for each pair.
measure_whole() {
    local source=$1 bounds=("$2" 4000000) numbers=$3 facts=$4 pairs=$5 chains=$6 seconds word words counts=() peaks=()
    [[ $("$analysis_program" chained "$source" "${bounds[@]}") == \
        "facts: $facts"$'\n'"pairs: $pairs"$'\n'"chains: $chains" ]] ||
        give_up "show_analysis did not find $facts facts, $pairs pairs and $chains chains in $source"
    seconds=$(seconds_of "$analysis_program" chained "$source" "${bounds[@]}")
    for word in inferred saturated chained; do
        words=("$word" "$source")
        [[ $word == inferred ]] || words+=("${bounds[@]}")
        counts+=("$(counted_of "$seconds" "${words[@]}")")
        peaks+=("$(peak_of "$analysis_program" "${words[@]}")")
    done
    shares=("$(share_of "${counts[1]}" "${counts[0]}" "$facts")" "$(share_of "${counts[2]}" "${counts[1]}" "$pairs")"
        "$(share_of "${counts[2]}" "$empty_count" "$facts")" "$(share_of "${counts[2]}" "$empty_count" "$pairs")")
    whole_row "$(bytes_of "$source")" "$numbers" "$facts" "$pairs" "$chains" "${counts[@]}" "${shares[@]}" "$seconds" \
        "${peaks[2]}" "$(share_of "${peaks[1]}" "${peaks[0]}" "$facts" 1024)" \
        "$(share_of "${peaks[2]}" "${peaks[1]}" "$pairs" 1024)"
}

# Prints the rows of a family of the analysis, how many times the instructions of the first one the last one takes that is
# counted, and the least stack of the first one: its name; the depth; how many facts, pairs and chains a source with the numbers `n` and
# `m` has; and its numbers at each size, one or two.
whole_family() {
    local name=$1 depth=$2 facts=$3 pairs=$4 chains=$5 numbers n m source firsts=() lasts=() shares ratios=() stack=-
    echo
    echo "$name, at depth $depth"
    whole_row bytes numbers facts pairs chains inferred saturated chained a-fact a-pair all/fact all/pair user-s \
        "peak-KiB:${sizer##*/}" bytes/fact bytes/pair
    for numbers in "${@:6}"; do
        read -r n m <<<"$numbers"
        source=$room/${name%%:*}_${depth}_${numbers// /_}.abs
        "${name%%:*}_of" "$n" "$m" >"$source"
        measure_whole "$source" "$depth" "$numbers" "$((facts))" "$((pairs))" "$((chains))"
        ((${#firsts[@]} > 0)) || firsts=("${shares[@]}") stack=$(whole_stack_of "$source")
        [[ ${shares[2]} == - ]] || lasts=("${shares[@]}")
    done
    ((${#lasts[@]} > 0)) || lasts=("${firsts[@]}")
    for n in 0 1 2 3; do ratios+=("$(quotient "${lasts[n]}" "${firsts[n]}")"); done
    echo "large to small: ${ratios[0]} a fact, ${ratios[1]} a pair; in all ${ratios[2]} for each fact, ${ratios[3]} for each" \
        "pair; least stack of the first one in KiB: $stack"
}

echo "{ }" >"$room/no_statement.abs"
empty_count=$(instructions_of "$analysis_program" chained "$room/no_statement.abs") empty_count=${empty_count:--}
echo
echo "whole_analysis: what the analysis takes, in instructions:$counter. The empty program takes $empty_count, has a peak of" \
    "$(peak_of "$analysis_program" chained "$room/no_statement.abs") KiB and needs a stack of" \
    "$(whole_stack_of "$room/no_statement.abs") KiB"
whole_family "programs: classes as the program generator writes them" 1 '4 * n' n 0 200 2000 5000
whole_family "list: objects in a list, whose head is called with it" 1 'n * n + 3 * n + 1' 0 0 100 1000
whole_family "assigned: locals, each assigned from the next one" 1 'n + 1' 0 0 1000 20000
whole_family "results: the results of many objects in one local" 1 '5 * n + 1' n 0 600 6000
whole_family "one_sign: objects of one sign, each field with many" 1 '2 * m * m + n * (m + 2) + m + 1' 0 0 "100 50" "1000 50"
whole_family "own_calls_forward: methods in a chain of calls on this" 1 'n + 2' 0 0 1000 10000
whole_family "own_calls_backward: the same from the last method on" 1 'n + 2' 0 0 1000 10000
whole_family "own_calls_await: the same with an await before each" 1 '2 * n + 3' n 0 500 5000
whole_family "names: classes that make one another" 1 '(n + 1) * (n * n + 1) + 2' 0 0 10 30
whole_family "names: classes that make one another" 2 '(n + 1) * (n * n * n + n + 1) + 2' 0 0 10 30
whole_family "get_ring: a ring of gets" 1 '6 * n + 1' n 1 200 2000
whole_family "await_ring: a ring of awaits" 1 '6 * n + 1' n 0 200 2000
whole_family "twos: rings of two gets" 1 '12 * n + 1' '2 * n' n 200 2000
whole_family "own_gets: gets of messages to the own object" 1 'n + 4' n n 500 5000
whole_family "futures: gets of a local with many futures" 1 '3 * n + 1' 'n * m' 0 "100 100" "1000 1000"
whole_family "layers: objects in layers, by their width and number" 1 '2 * m * n * n + 3 * n * (m + 1) + 1' 'm * n * n' 0 \
    "10 100" "10 300" "10 1000"
whole_family "all: objects that each get from each" 1 '2 * n * n + 3 * n + 1' 'n * n' 'n * (n + 1) / 2' 30 100
