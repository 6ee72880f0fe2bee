# Backfills that record their tries. Sourced by the scripts about journals: sets what shared/compare.sh sets, and goes to the folder `work`.
source "$(dirname "$(readlink -f "${BASH_SOURCE[0]}")")/compare.sh"
cd "$work"

# The program of a try of the graph below: it notes in the file `ran` that it ran, and what for.
cat > tried <<'LINES'
echo "$1 $2 $3 $4" >> ran
case $2 in
    src) sleep "0.0$(($$ % 3))"; echo '[1,2,3]' ;;
    m) [ "$3 $4" != '1 1' ] || exit 1; echo "v $5" ;;
    sum) echo "$5" ;;
    no) exit 99 ;;
esac
LINES

# A list, a task for each of its items, of which the second fails once, their sum, and a task that is skipped: 7 tries a run, 35 in the
# range. With `linked` the list depends on its past.
range=(--from 2024-01-01 --to 2024-01-05)
noting_tasks() {
    local past=false words='"sh","tried",{"context":"logical_date"},{"context":"task_id"},{"context":"map_index"},{"context":"try_number"}'
    [[ ${1:-} != linked ]] || past=true
    tasks '
        {"id":"src","depends_on_past":'"$past"',"command":['"$words"']},
        {"id":"m","upstream":["src"],"expand":"src","retries":1,"command":['"$words"',{"item":true}]},
        {"id":"sum","upstream":["m"],"command":['"$words"',{"pull":"m"}]},
        {"id":"no","upstream":["src"],"command":['"$words"']}'
}

# The same answers by a table.
noting_table() {
    echo '[
        {"task":"src","out":"[1,2,3]"},
        {"task":"m","index":1,"try":1,"status":1},
        {"task":"m","index":0,"out":"v 1"},
        {"task":"m","index":1,"out":"v 2"},
        {"task":"m","index":2,"out":"v 3"},
        {"task":"sum","out":"[\"v 1\",\"v 2\",\"v 3\"]"},
        {"task":"no","status":99}]' > "$table"
}

# Runs the graph by a journal. Sets `status`; what is printed stands in `out` and `err`.
goes_on() {
    local journal=$1
    shift
    status=0
    timeout 120 "$program" run "$graph" "${range[@]}" --journal "$journal" "$@" > out 2> err || status=$?
}

# The lines of a journal behind its head without their times, as they stand there.
untimed() {
    sed '1d; s/,\[[0-9]*,[0-9]*,-\?[0-9]*\]\]$//' "$1"
}

# The same in any order.
records() {
    untimed "$1" | sort
}

# The names of the recorded tries as the programs note them, of whole lines alone.
recorded() {
    [[ ! -s $1 ]] || head -n "$(wc -l < "$1")" "$1" | sed '1d; s/^\["\([^"]*\)","\([^"]*\)",\([^,]*\),\([^,]*\),.*/\1 \2 \3 \4/'
}

# Kills a process that was started here.
kills() {
    {
        kill -KILL "$1" || true
        wait "$1" || true
    } 2> "$work/said"
}

# Waits up to ten seconds until a command succeeds.
waits_for() {
    local look
    for ((look = 0; look < 1000; look++)); do
        ! "$@" || return 0
        sleep 0.01
    done
    differs "waited in vain for: $*"
}
