#!/usr/bin/env bash
# Starts Slurm on this machine, in a folder of its own, and runs tries through examples/cluster/on-slurm: compares the reports of a
# week with that of the local run, cancels a job and looks whether its try is made again, and times 200 tries beside a plain loop of
# srun. Stops what it started. Needs Slurm and munge, and to be root. The status is 2 where Slurm isn't installed.
set -euo pipefail

for needed in munged slurmctld slurmd srun; do
    if ! PATH=$PATH:/usr/sbin command -v "$needed" > /dev/null; then
        echo "Slurm isn't installed: there is no $needed" >&2
        exit 2
    fi
done
PATH=$PATH:/usr/sbin
source "$(dirname "$(readlink -f "${BASH_SOURCE[0]}")")/../../bench/program.sh"
launcher=$root/examples/cluster/on-slurm
week=(--from 2024-01-01 --to 2024-01-07)
started=()

# No other Slurm is asked for anything, from here on.
export SLURM_CONF=$work/slurm.conf

stop() {
    [[ ! -s $SLURM_CONF ]] || scancel --quiet --user="$(id -un)" 2> /dev/null || true
    [[ ${#started[@]} -eq 0 ]] || kill "${started[@]}" 2> /dev/null || true
    wait
    rm -rf "$work"
}
trap stop EXIT

# Starts a program that stays, and keeps what it says in a file.
start() {
    "$@" > "$work/${1##*/}.log" 2>&1 < /dev/null &
    started+=($!)
}

# Waits for at most 30 seconds until a command succeeds.
until_done() {
    local tries
    for ((tries = 0; tries < 300; tries++)); do
        if "$@"; then
            return
        fi
        sleep 0.1
    done
    echo "not within 30 s: $*" >&2
    tail -n 5 "$work"/*.log >&2
    exit 1
}

is_idle() {
    [[ $(sinfo --noheader --format=%t 2> /dev/null) == idle ]]
}

host=$(hostname -s)
chmod 755 "$work"
mkdir "$work/controller" "$work/node"
(umask 077 && head -c 1024 /dev/urandom > "$work/munge.key")
cat > "$SLURM_CONF" <<CONF
ClusterName=one
SlurmctldHost=$host(127.0.0.1)
SlurmUser=$(id -un)
AuthType=auth/munge
AuthInfo=socket=$work/munge.socket
CredType=cred/munge
StateSaveLocation=$work/controller
SlurmdSpoolDir=$work/node
SlurmctldPidFile=$work/slurmctld.pid
SlurmdPidFile=$work/slurmd.pid
ProctrackType=proctrack/linuxproc
TaskPlugin=task/none
SelectType=select/cons_tres
SelectTypeParameters=CR_CPU
ReturnToService=2
NodeName=$host NodeAddr=127.0.0.1 CPUs=$(nproc) State=UNKNOWN
PartitionName=all Nodes=ALL Default=YES MaxTime=INFINITE State=UP OverSubscribe=FORCE:64
CONF

start munged --force --foreground --key-file="$work/munge.key" --socket="$work/munge.socket" --pid-file="$work/munge.pid" \
    --seed-file="$work/munge.seed" --log-file="$work/munge.log"
until_done test -S "$work/munge.socket"
start slurmctld -D
start slurmd -D
until_done is_idle
echo "Slurm $(srun --version | cut -d ' ' -f 2) is there, with one node of $(nproc) processors"

# The reports of a week.

orders=$root/examples/extract_transform_load/graph.json
"$program" run "$orders" "${week[@]}" > "$work/local"
for workers in 8 64; do
    "$program" run "$orders" "${week[@]}" --workers "$workers" --launcher "$launcher" > "$work/report"
    cmp "$work/local" "$work/report"
    echo "a week by $workers workers: the report has the bytes of the local run"
done

# A job that is cancelled. Its task sleeps in its first try alone.

cat > "$work/graph.json" <<'GRAPH'
{"dag_id":"d","schedule":"@daily","tasks":[{"id":"a","retries":1,
  "command":["sh","-c","[ \"$0\" -gt 1 ] || sleep 600; echo done",{"context":"try_number"}]}]}
GRAPH
running() {
    squeue --noheader --states=running --format=%i
}
is_running() {
    [[ -n $(running) ]]
}
is_empty() {
    [[ -z $(squeue --noheader) ]]
}
until_done is_empty
"$program" run "$work/graph.json" --from 2024-01-01 --to 2024-01-01 --launcher "$launcher" > "$work/report" 2> "$work/program.log" &
waited=$!
until_done is_running
scancel "$(running)"
wait "$waited"
grep -qxF 'a -1 success 2 "done"' "$work/report"
echo "a job that was cancelled: its try was made again, and was a success"

# What a try takes.

python3 - > "$work/graph.json" <<'PY'
import json
print(json.dumps({"dag_id": "d", "schedule": "@daily", "tasks": [{"id": f"t{n}", "command": ["true"]} for n in range(200)]}))
PY
plain_loop() {
    seq 200 | xargs -P 8 -I '{}' srun --ntasks=1 --quiet true
}
through_launcher() {
    "$program" run "$work/graph.json" --from 2024-01-01 --to 2024-01-01 --workers 8 --launcher "$launcher"
}
# The seconds that a command takes, where the cluster has nothing else to do.
seconds() {
    until_done is_empty
    until_done is_idle
    local begin=$EPOCHREALTIME
    "$@" > /dev/null
    awk -v begin="$begin" -v end="$EPOCHREALTIME" 'BEGIN { printf "%.1f\n", end - begin }'
}
# Slurm's own times differ much from one time to the next, so the two take turns, and the least of three is told.
for _ in 1 2 3; do
    seconds through_launcher >> "$work/ours"
    seconds plain_loop >> "$work/loop"
done
least() {
    sort -n "$1" | head -n 1
}
echo "200 tries, 8 at once: $(least "$work/ours") s, and by a plain loop of srun $(least "$work/loop") s"
