#!/usr/bin/env bash
# What comparison.sh, which sources it, needs for its searches and for the rules of facts: models of n stages or n
# items, checked against the histories of show_run, and searched up to a limit of time and memory.

# Prints the worked program buffer_and_workers, where each worker puts $1 numbers.
buffer_of() {
    sed "s/work(0, 10)/work(0, $1)/; s/work(10, 20)/work($1, $((2 * $1)))/" "$root/tests/trees/buffer_and_workers.abs"
}

# Prints the tasks of a history that show_run prints in a way, `history`, `greatest` or `scattered`, one in each line.
tasks_of() {
    "$run_program" "$1" "$2" | tr ' ' '\n' | awk -F '*' 'NF == 2 { for (n = 0; n < $1; n++) print $2 }'
}

# Makes the program $room/pan, which searches a model: the model, and the flags for spin and, after `--`, for gcc.
make_pan() {
    local model=$1 flags=()
    shift
    while [[ $1 != -- ]]; do flags+=("$1") && shift; done
    cp -- "$root/bench/$model.pml" "$room" && rm -f -- "$room/pan.c"
    (cd "$room" && spin -a "${flags[@]}" "$model.pml" >spin.out 2>&1 && [[ ! -s spin.out ]] &&
        gcc -O2 -w -DSAFETY -DVECTORSZ=65536 "${@:2}" -o pan pan.c) ||
        give_up "no program comes of $model.pml with ${flags[*]}"
}

# Searches the model with a size: a flag for spin, one for gcc, the model, the name of the size, flags for
# spin, and the size. Prints the states, the transitions, the seconds and the peak memory, or why it was stopped.
spin_search() {
    local size=${*: -1} flags=("${@:5:$#-5}") seconds
    make_pan "$3" "$1" "-D$4=$size" ${flags[@]+"${flags[@]}"} -- "$2" -DMEMLIM="$megabytes_limit"
    seconds=$( (time timeout "$seconds_limit" /usr/bin/time -f %M -o "$room/peak" nice "$room/pan" -m1000000 \
        >"$room/search" 2>&1) 2>&1)
    seconds=${seconds% *}
    if grep -q 'Search not completed\|memory limit\|out of memory' "$room/search"; then
        echo "stopped memory $seconds $(tail -n 1 "$room/peak")"
    elif ! grep -q 'states, stored' "$room/search"; then
        echo "stopped time $seconds -"
    elif ! grep -q 'errors: 0$' "$room/search"; then
        echo "stalls - $seconds -"
    else
        awk -v rest="$seconds $(tail -n 1 "$room/peak")" '
            /states, stored/ { states = $1 }
            /transitions/ { transitions = $1 }
            END { print states, transitions, rest }' "$room/search"
    fi
}

# Prints stages.maude for $1 stages.
maude_of() {
    echo "fmod SIZE is protecting NAT . op stages : -> Nat . eq stages = $1 . endfm"
    cat -- "$root/bench/stages.maude"
}

# Searches the model of Maude with $1 stages for a run that stalls. Prints the same as spin_search; of the
# transitions Maude does not say how many there are.
maude_search() {
    local seconds
    maude_of "$1" >"$room/search.maude"
    echo "search [1] in STAGES : first =>! X:Configuration task(T, C, P, S, V, F) ." >>"$room/search.maude"
    seconds=$( (
        ulimit -v $((1024 * megabytes_limit))
        time timeout "$seconds_limit" /usr/bin/time -f %M -o "$room/peak" nice maude -no-banner -batch \
            "$room/search.maude" </dev/null >"$room/search" 2>&1
    ) 2>&1)
    seconds=${seconds% *}
    if grep -q '^No solution' "$room/search"; then
        awk -v seconds="$seconds" -v peak="$(tail -n 1 "$room/peak")" \
            '/^states:/ { states = $2 } END { print states, "-", seconds, peak }' "$room/search"
    elif grep -q '^Solution' "$room/search"; then
        echo "stalls - $seconds -"
    elif awk -v seconds="$seconds" -v limit="$seconds_limit" 'BEGIN { exit !(seconds < limit) }'; then
        echo "stopped memory $seconds -"
    else
        echo "stopped time $seconds -"
    fi
}

# Gives up unless the model has the run of each history that show_run prints of a source, and comes to its end: the
# model, the name of its size, the size, the source, and flags for spin. Such a run has a state more than events.
follow_histories() {
    local model=$1 size=$2 n=$3 source=$4 way events last
    for way in history greatest scattered; do
        tasks_of "$way" "$source" >"$room/tasks"
        events=$(wc -l <"$room/tasks")
        echo "#define EVENTS $events" >"$room/history.pml"
        echo "#define HISTORY {$(paste -s -d , "$room/tasks")}" >>"$room/history.pml"
        make_pan "$model" -o3 -DREPLAY "-D$size=$n" "${@:5}" -- -DNOREDUCE
        "$room/pan" -m100000 >"$room/search"
        grep -q 'errors: 0$' "$room/search" && grep -q "^ *$((events + 1)) states, stored" "$room/search" ||
            give_up "$model.pml with $n has not the run of the history $way"
        [[ $model == stages ]] && type -P maude >/dev/null || continue
        maude_of "$n" >"$room/run.maude"
        echo "srew first using $(sed 's/.*/ event(&) /' "$room/tasks" | paste -s -d ';') ." >>"$room/run.maude"
        last=$(maude -no-banner -batch "$room/run.maude" </dev/null 2>&1 | tr -s ' \n' ' ')
        [[ $last == *"printed($n) "*"ended(0, $n)"* && $last != *"task("* ]] ||
            give_up "stages.maude with $n has not the run of the history $way"
    done
}
stages_follow_histories() {
    local n
    for n in "$@"; do
        programs_of "$n" >"$room/programs.abs"
        follow_histories stages STAGES "$n" "$room/programs.abs"
    done
    echo "(the models have the runs of three histories each, with $* stages)"
}
buffer_follows_histories() {
    local n
    for n in "$@"; do
        buffer_of "$n" >"$room/buffer.abs"
        follow_histories buffer_and_workers ITEMS "$n" "$room/buffer.abs"
        follow_histories buffer_and_workers ITEMS "$n" "$room/buffer.abs" -DSUM_ALONE
    done
    echo "(the models have the runs of three histories each, with $* items a worker)"
}

# Prints the input of saturation.lp for $1 generated classes. A place is a number.
datalog_of() {
    LC_ALL=C awk -v classes="$1" 'BEGIN {
        for (n = 1; n <= classes; n++) {
            b = "c" n; p = 10 * n
            print "method(" b ", " b "). implements(" b ", stage). field(" b ", 0, stage). result(" b ", int)."
            print "slot(" b ", 0, int). slot(" b ", 1, int). slot(" b ", 2, future)."
            print "assign(" b ", " p ", 1). value(" p ", slot(0))."
            print "send(" b ", " p + 1 ", 2, stage). receiver(" p + 1 ", field(0)). argument(" p + 1 ", 0, slot(1))."
            print "get(" b ", " p + 2 ", 1, 2). return(" b ", " p + 3 "). value(" p + 3 ", slot(1))."
        }
        print "main(m)."
        for (n = 1; n <= classes; n++) {
            p = 10 * n + 4
            print "slot(m, " n - 1 ", stage). make(m, " p ", " n - 1 ", c" n ")."
            if (n > 1) print "argument(" p ", 0, slot(" n - 2 "))."
        }
        p = 10 * (classes + 1)
        print "slot(m, " classes ", future). slot(m, " classes + 1 ", int)."
        print "send(m, " p ", " classes ", stage). receiver(" p ", slot(" classes - 1 "))."
        print "get(m, " p + 1 ", " classes + 1 ", " classes ")."
    }'
}
