#!/usr/bin/env bash
# Measures the analysis beside other tools on the generated classes (the family `programs` of bench/run), and beside a
# search of states on the worked program buffer_and_workers too. It is run by hand and judges nothing, but it gives up
# where a tool gives another number of facts or states than the formula beside it.
#   classes: show_analysis with the whole report, and `ocamlc -i` for as many classes; time and instructions
#   states:  models of the classes for Spin (stages.pml) and Maude (stages.maude), which have a transition for each
#            event of the table of events in docs/SEMANTICS.md: an exhaustive search for a run that stalls. First of all
#            both models go through three histories that show_run prints.
#   buffer:  the same for the worked program with n numbers a worker (buffer_and_workers.pml), and show_analysis
#   facts:   show_analysis up to the facts, a bare work list (work_list.rs) and rules for gringo (saturation.lp)
# A time is the least of five, wall time and user time in seconds; a search is made once, and its time is wall time.
# That of Spin is without `spin -a` and gcc, which make its program. Instructions are by callgrind. A search is stopped
# after 120 s, or where it takes over 4 GB. A tool that is not there is left out.
# usage: bench/comparison.sh [SHOW_ANALYSIS [SHOW_RUN [PART..]]]     without parts all four; without the programs those
#                                                                   that their crates have built
set -u

root=$(dirname -- "$(readlink -f -- "${BASH_SOURCE[0]}")")/..
room=$(mktemp -d) || exit 2
trap 'rm -rf -- "$room"' EXIT
. "$root/bench/sources.sh"
. "$root/bench/models.sh"
analysis_program=$(readlink -f -- "${1:-$root/crates/show_analysis/out/show_analysis}")
run_program=$(readlink -f -- "${2:-$root/crates/show_run/out/show_run}")
seconds_limit=120 megabytes_limit=4096
TIMEFORMAT='%R %U'

give_up() {
    echo "bench/comparison.sh: $*" >&2
    exit 1
}

# Whether all of these tools are there; says which one is not.
are_there() {
    local tool
    for tool in "$@"; do
        type -P "$tool" >/dev/null && continue
        echo "left out: there is no $tool"
        return 1
    done
}

# The least wall time and the least user time of five calls.
times_of() {
    for _ in 1 2 3 4 5; do
        { time "$@" >/dev/null 2>&1; } 2>&1
    done | awk 'NR == 1 || $1 < wall { wall = $1 } NR == 1 || $2 < user { user = $2 } END { print wall, user }'
}

instructions_of() {
    type -P valgrind >/dev/null || { echo - && return; }
    valgrind --tool=callgrind --callgrind-out-file="$room/callgrind" "$@" >/dev/null 2>&1
    awk '$1 == "totals:" || $1 == "summary:" { total = $2 } END { print total }' "$room/callgrind"
}

difference() {
    if [[ $1 == - || $2 == - ]]; then echo -; else echo $(($1 - $2)); fi
}

# Prints a row of the parts classes and facts.
row() {
    printf '%-28s  %6s  %9s  %14s  %7s  %7s\n' "$@"
}

# The row of a tool for a source of generated classes: their number, the source, and the command.
class_row() {
    row "${3##*/} $4" "$1" "$(stat -c %s "$2")" "$(instructions_of "${@:3}" "$2")" $(times_of "${@:3}" "$2")
}

classes_part() {
    local n source
    row tool classes bytes instructions wall-s user-s
    for n in 500 1000 2712 5000 5424; do
        source=$room/programs.abs
        programs_of "$n" >"$source"
        [[ $("$analysis_program" report "$source") == "no circular chain" ]] ||
            give_up "show_analysis has another report of $n classes"
        class_row "$n" "$source" "$analysis_program" report
        are_there ocamlc || continue
        source=$room/programs.ml
        ocaml_programs_of "$n" >"$source"
        ocamlc -i "$source" >/dev/null || give_up "ocamlc refuses the source of $n classes"
        class_row "$n" "$source" ocamlc -i
    done
}

# Prints a row of the parts states and buffer, where the number of states is as it should be, if one is given.
state_row() {
    printf '%-44s  %5s  %11s  %12s  %8s  %9s\n' "$@"
}
searched_row() {
    local name=$1 size=$2 wanted=$3 states=$4
    [[ $states == stopped || -z $wanted || $states == "$wanted" ]] ||
        give_up "$name of size $size has $states states, and not $wanted"
    state_row "$name" "$size" "$states" "${@:5}"
}

# The row of show_analysis: the size, what is in the column of transitions, and the source.
analysis_row() {
    local times
    times=$(times_of "$analysis_program" report "$3")
    state_row "show_analysis report" "$1" - "$2" "${times% *}" -
}

# Runs a search for each size up to the first one that is stopped: the name of the row, a formula for the number of
# states, or nothing, a function of models.sh with its first words, and after `--` the sizes.
searches() {
    local name=$1 formula=$2 command=() n answer
    shift 2
    while [[ $1 != -- ]]; do command+=("$1") && shift; done
    for n in "${@:2}"; do
        answer=$("${command[@]}" "$n")
        searched_row "$name" "$n" "${formula:+$((formula))}" $answer
        [[ $answer != stopped* ]] || break
    done
}

states_part() {
    local formula='12 * 2 ** n + n - 8'
    state_row search stages states transitions wall-s peak-KiB
    if are_there spin gcc; then
        stages_follow_histories 1 8 12
        searches "Spin, each event" "$formula" spin_search -o3 -DNOREDUCE stages STAGES -- 8 10 12 14 16 18 20
        searches "Spin, with its reduction" "" spin_search -DREDUCED -DREDUCED stages STAGES -- 8 10 12 14 16 18 20
        searches "Spin, call and release in one" "17 * n" spin_search -DREDUCED -DREDUCED stages STAGES -DJOINED \
            -- 8 20 100 200
    fi
    if are_there maude; then
        searches "Maude, each event" "$formula" maude_search -- 8 10 12 14 16 18 20
    fi
    for n in 8 20 200; do
        programs_of "$n" >"$room/programs.abs"
        analysis_row "$n" - "$room/programs.abs"
    done
}

# Searches the model of the buffer: what the row says, two flags, what it keeps, and after `--` the sizes.
buffer_searches() {
    searches "Spin, $1" "" spin_search "$2" "$3" buffer_and_workers ITEMS "${@:4}"
}

buffer_part() {
    local n
    state_row search items states transitions wall-s peak-KiB
    if are_there spin gcc; then
        buffer_follows_histories 1 4 10
        buffer_searches "each event, the list" -o3 -DNOREDUCE -- 1 2 4 6 8
        buffer_searches "with its reduction, the list" -DREDUCED -DREDUCED -- 1 2 4 6
        buffer_searches "each event, the sum alone" -o3 -DNOREDUCE -DSUM_ALONE -- 1 2 4 8 16 32 64 128
        buffer_searches "with its reduction, the sum alone" -DREDUCED -DREDUCED -DSUM_ALONE -- 1 2 4 8 16 32 64 128
    fi
    for n in 1 128 100000; do
        buffer_of "$n" >"$room/buffer.abs"
        analysis_row "$n" "$(instructions_of "$analysis_program" report "$room/buffer.abs")" "$room/buffer.abs"
    done
    echo "(of show_analysis the instructions, in the place of the transitions)"
}

# Gives up where a tool does not find four facts for each class.
check_facts() {
    [[ $3 == $((4 * $2)) ]] || give_up "$1 finds $3 facts of $2 classes, and not $((4 * $2))"
}

facts_part() {
    local n source=$room/programs.abs list=$room/work_list input=$room/input.lp one other
    local rules=$root/bench/saturation.lp
    row tool classes facts instructions wall-s user-s
    for n in 500 1000 5000; do
        programs_of "$n" >"$source"
        check_facts show_analysis "$n" "$("$analysis_program" facts "$source" | grep -c .)"
        one=$(instructions_of "$analysis_program" saturated "$source")
        other=$(instructions_of "$analysis_program" inferred "$source")
        row "show_analysis saturated" "$n" $((4 * n)) "$one" $(times_of "$analysis_program" saturated "$source")
        row "  less inferred" "$n" $((4 * n)) "$(difference "$one" "$other")" - -
        if are_there rustc && rustc --edition 2021 -O -o "$list" "$root/bench/work_list.rs"; then
            check_facts work_list.rs "$n" "$("$list" facts "$n")"
            one=$(instructions_of "$list" facts "$n") other=$(instructions_of "$list" terms "$n")
            row "work_list.rs" "$n" $((4 * n)) "$one" $(times_of "$list" facts "$n")
            row "  less its terms" "$n" $((4 * n)) "$(difference "$one" "$other")" - -
        fi
        are_there gringo || continue
        datalog_of "$n" >"$input"
        check_facts gringo "$n" "$(gringo --text "$rules" "$input" | grep -cE '^(live|holds|holds_field|gives)\(')"
        one=$(instructions_of gringo --text "$rules" "$input")
        row "gringo --text" "$n" $((4 * n)) "$one" $(times_of gringo --text "$rules" "$input")
    done
}

[[ -x $analysis_program && -x $run_program ]] || give_up "there is no show_analysis or no show_run"
parts=("${@:3}")
((${#parts[@]} > 0)) || parts=(classes states buffer facts)
for part in "${parts[@]}"; do
    echo "$part"
    case $part in
    classes | states | buffer | facts) "${part}_part" ;;
    *) give_up "there is no part $part" ;;
    esac
    echo
done
