# Crashes of backfills that record their tries. Sourced: sets what shared/journals.sh sets, with the report of an untouched backfill in
# `plain`, its status in the variable of that name, and its journal in `whole`; counts the lines that are begun, and those that a signal
# ended.
source "$(dirname "$(readlink -f "${BASH_SOURCE[0]}")")/journals.sh"
begun=0
ended=0

noting_tasks
plain=0
"$program" run "$graph" "${range[@]}" > plain || plain=$?
goes_on whole

# Waits until the backfill began a chance number of further tries or ended, and up to 9 ms more: on a slow machine as on a fast one, most
# signals come in the middle.
waits_by_chance() {
    local tries=$(($(< mark) + RANDOM % 14))
    while [[ $(wc -l < ran) -lt $tries ]] && is_left "$1"; do
        sleep 0.002
    done
    sleep "0.00$((RANDOM % 10))"
}

# Whether a process of the group runs. One that ended stays there until it is asked for, which may take init seconds.
is_left() {
    kill -0 -- "-$1" 2> /dev/null && [[ $(ps -eo pgid=,stat=) =~ (^|$'\n')\ *"$1"\ +[^Z] ]]
}

# Begins the backfill again and again, and ends it and its programs by this signal at a chance moment, until it ends by itself.
survives() {
    local signal=$1 workers=$2 pid
    rm -f journal
    : > ran
    while true; do
        recorded journal > before
        wc -l < ran > mark
        begun=$((begun + 1))
        setsid env --default-signal=INT "$program" run "$graph" "${range[@]}" --journal journal --workers "$workers" > out 2> err &
        pid=$!
        waits_by_chance "$pid"
        kill "-$signal" -- "-$pid" 2> /dev/null || true
        status=0
        wait "$pid" 2> /dev/null || status=$?
        # A program that is just being started has the journal open for a moment.
        while is_left "$pid"; do
            sleep 0.01
        done
        rows=$((rows + 1))
        [[ -z $(tail -n "+$(($(< mark) + 1))" ran | grep -xFf before) ]] || differs "a recorded try ran again behind SIG$signal"
        [[ $status -gt 128 ]] || break
        ended=$((ended + 1))
    done
    is_same "the status behind SIG$signal, by $workers" "$plain" "$status"
    holds "the report behind SIG$signal, by $workers" cmp plain out
    is_same "the journal behind SIG$signal, by $workers" "$(records whole)" "$(records journal)"
}

# Goes on from the first bytes of the whole journal, so many.
is_cut() {
    local count=$1 workers=$2 torn=''
    head -c "$count" whole > cut
    [[ $count -eq 0 || -z $(tail -c 1 cut) ]] || torn=1
    : > ran
    recorded cut > before
    goes_on cut --workers "$workers"
    rows=$((rows + 1))
    [[ $status -eq $plain ]] && cmp -s plain out || differs "the report behind $count bytes, by $workers"
    [[ $(records cut) == "$(records whole)" ]] || differs "the journal behind $count bytes, by $workers"
    [[ -z $(grep -xFf before ran) ]] || differs "a recorded try ran again behind $count bytes, by $workers"
    if grep -q 'cut short' err; then
        [[ -n $torn ]] || differs "a tail is told of behind $count bytes, by $workers"
    else
        [[ -z $torn ]] || differs "no tail is told of behind $count bytes, by $workers"
    fi
}
