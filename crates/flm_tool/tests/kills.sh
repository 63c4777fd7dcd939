# What the scripts share that kill the program at random moments (kill -9). A script reads it in behind rows.sh, with `program` set to the built
# program, `size` to the number of cells and `span` to the microseconds that a run takes. Its function `begin` makes new cells, with a copy of them
# in `old` and what they come to in `new`, and sets `words` to those that stand behind `program` for it.

killed=0
jobs=0
untouched=0
whole=0
finished=0

# Runs the words, and kills them at a random moment. The status is 137 where they were killed; by then the program has ended, and its locks with it,
# which `timeout` waits for in the foreground alone.
run_and_kill() {
    local after=$(((RANDOM * 32768 + RANDOM) % (span + span / 10) + 1))
    timeout --foreground --preserve-status -s KILL "$((after / 1000000)).$(printf '%06d' $((after % 1000000)))" "$program" job cells "$@" > out 2> err
}

# What each command leaves in the cells when it is done.
goal_of() { if [ "$1" = revert ]; then echo old; else echo new; fi; }

# After a kill in a COMMAND the job is whole, or the device is untouched, or the job is finished. Sets the next command, which is LATER where
# the job is whole: COMMAND LATER.
look() {
    row "killed in $1: as many cells" "$([ "$(wc -c < cells)" = "$size" ]; echo $?)"
    if [ "$(free)" != 0 ]; then
        whole=$((whole + 1))
        next=$2
    elif [ "$1" = program ] && [ "$(same cells old)" = 0 ]; then
        untouched=$((untouched + 1))
        next=program
    else
        row "killed in $1: finished" "$(same cells "$(goal_of "$1")")"
        finished=$((finished + 1))
        next=none
    fi
}

# A command that wasn't killed is done: COMMAND STATUS.
ended() {
    row "$1: the status $2" "$2"
    row "$1: done is the last line" "$([ "$(tail -n 1 out)" = "done" ]; echo $?)"
    row "$1: the cells" "$(same cells "$(goal_of "$1")")"
    row "$1: the job is closed" "$(free)"
    next=none
}

# Begins a job, and carries it on with a command, killed again and again: LATER.
carry() {
    begin
    next=program
    while [ $next != none ]; do
        local command=$next
        if [ "$command" = program ]; then
            run_and_kill program "${words[@]}"
        else
            run_and_kill "$command"
        fi
        local status=$?
        if [ $status = 137 ]; then
            killed=$((killed + 1))
            look "$command" "$1"
        else
            ended "$command" $status
        fi
    done
    jobs=$((jobs + 1))
}

# Carries jobs, by turns to their image and back, until so many kills were made or something is wrong: KILLS.
carry_jobs() {
    local until=$((killed + $1))
    while [ $killed -lt $until ] && [ $wrong = 0 ]; do
        if [ $((jobs % 2)) = 0 ]; then carry resume; else carry revert; fi
    done
}

# What the kills left.
tell_kills() { echo "$killed kills in $jobs jobs: $untouched times untouched, $whole times whole, $finished times finished"; }
