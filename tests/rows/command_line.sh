#!/usr/bin/env bash
# Hands the program lines that ask for help, lines that are wrong, and lines with several faults at once, and compares its
# exit status and what it prints with what stands here: by docs/FORMATS.md, and for the words of the line by clap. The last line
# is the sum, and the status is 1 where a row differs.
set -euo pipefail

source "$(dirname "$(readlink -f "${BASH_SOURCE[0]}")")/../shared/compare.sh"
cd "$work"

# Help stands on standard output where it is asked for, and on standard error where a word is wanting.

cat > help <<'HELP'
Runs a graph of tasks once for each data interval of a range of dates

Usage: backfill <COMMAND>

Commands:
  check        Checks the graph, and tells how many tasks and edges it has
  list         Lists the data intervals of the graph's schedule that start in a range
  single       Runs the graph once, answering each task from a table
  dry          Runs the graph for each data interval that starts in a range, answering each task from a table
  run          Runs the graph for each data interval that starts in a range, with the programs of its tasks
  clear        Runs tasks of runs again, with all that follows from them, and keeps the rest of a report
  show         Shows a report as a grid of characters, a column for each run and a row for each task
  page         Writes a page that shows a report: its runs and tasks as a grid, the graph, and why each task has its state
  explain      Tells why a task of a run, or a run, has its state
  answers      Prints the table of answers over which a dry backfill has a report again
  schema       Prints the JSON Schema of graph files or tables, for editors
  completions  Prints what a shell completes of a command line
  help         Print this message or the help of the given subcommand(s)

Options:
  -h, --help     Print help
  -V, --version  Print version
HELP
for asked in --help -h help; do
    answers 0 "$asked" < help
done
: > wanted_out
cp help wanted_err
ends 2
answers 0 check --help <<'HELP'
Checks the graph, and tells how many tasks and edges it has

Usage: backfill check [OPTIONS] <GRAPH>

Arguments:
  <GRAPH>  The task graph, a JSON file

Options:
      --zone-file <PATH>  The zone file that the graph's zone `file` means, as of the tz database
      --explain           Tells on standard error all that is wrong with a graph that is refused, at most 100 findings
  -h, --help              Print help

Example:
  backfill check examples/every_key/graph.json
HELP
answers 0 list --help <<'HELP'
Lists the data intervals of the graph's schedule that start in a range

Usage: backfill list [OPTIONS] <GRAPH>

Arguments:
  <GRAPH>  The task graph, a JSON file

Options:
      --zone-file <PATH>  The zone file that the graph's zone `file` means, as of the tz database
      --from <T>          The first moment at which an interval may start, in UTC, as 2024-01-31 or 2024-01-31T06:00:00Z
      --to <T>            The last moment at which an interval may start, in UTC, as 2024-01-31 or 2024-01-31T06:00:00Z
      --on <DAYS>         In place of both, the days on which an interval starts by the graph's zone, as 2024-01-31 or 2024-01-01..2024-01-31
      --some              Refuses a range in which no interval starts
  -h, --help              Print help

Examples:
  backfill list --from 2024-03-30 --to 2024-04-01 examples/clock_change/graph.json
  backfill list --on 2024-03-30..2024-04-01 examples/clock_change/graph.json
HELP
answers 0 run --help <<'HELP'
Runs the graph for each data interval that starts in a range, with the programs of its tasks

Usage: backfill run [OPTIONS] <GRAPH>

Arguments:
  <GRAPH>  The task graph, a JSON file

Options:
      --zone-file <PATH>  The zone file that the graph's zone `file` means, as of the tz database
      --from <T>          The first moment at which an interval may start, in UTC, as 2024-01-31 or 2024-01-31T06:00:00Z
      --to <T>            The last moment at which an interval may start, in UTC, as 2024-01-31 or 2024-01-31T06:00:00Z
      --on <DAYS>         In place of both, the days on which an interval starts by the graph's zone, as 2024-01-31 or 2024-01-01..2024-01-31
      --some              Refuses a range in which no interval starts
      --workers <N>       How many tries may run at once, 1 to 64; 1 where this isn't given
      --progress          Tells on standard error how far the runs are, at most once a second
      --out <PATH>        Writes the report to this file, whole or not at all, in place of standard output
      --keep <REPORT>     Keeps the tries of this report of the graph, of whatever range and tasks it is, and runs only the others
      --launcher <PATH>   Hands the words of each task's command to this program; without it the first word is the program
      --logs <FOLDER>     Keeps below this folder what each try writes and what it was given
      --journal <PATH>    Records each try in this file as it ends; where it has some, goes on from them
      --stop-after <N>    Begins no further try behind N failed ones; needs a journal
      --retry-failed      Makes the failed tries of the journal again, of what hasn't succeeded since
      --quiet             Tells neither progress nor which tries fail
  -h, --help              Print help

Examples:
  backfill run --from 2024-01-01 --to 2024-01-07 --workers 2 examples/extract_transform_load/graph.json
  backfill run --from 2024-01-01 --to 2024-01-07 --launcher /usr/bin/env examples/extract_transform_load/graph.json
  backfill run --from 2024-01-01 --to 2024-01-07 --journal journal --out report examples/extract_transform_load/graph.json
  backfill run --from 2024-01-01 --to 2024-01-08 --keep report --out report examples/extract_transform_load/graph.json
HELP
answers 0 clear --help <<'HELP'
Runs tasks of runs again, with all that follows from them, and keeps the rest of a report

Usage: backfill clear [OPTIONS] <GRAPH> <REPORT>

Arguments:
  <GRAPH>   The task graph, a JSON file
  <REPORT>  The report of the backfill to go on from

Options:
      --zone-file <PATH>  The zone file that the graph's zone `file` means, as of the tz database
      --task <ID>         A task to clear; with several, the first is of the first --run, and so on
      --run <T>           The logical date of the run in which it is cleared, in UTC, as 2024-01-31 or 2024-01-31T06:00:00Z
      --index <N>         Clears the instance of this map index alone, and what follows from it; one for each --task, or none
      --seeds <PATH>      In place of these, a file of what to clear, a line RUN TASK or RUN TASK INDEX each
      --failed            In place of these, clears each instance that failed
      --plan              Prints which tasks of which runs are cleared, and runs nothing
      --table <PATH>      The answers of the tasks' tries, a JSON file, in place of their programs
      --from <T>          The first moment at which an interval may start, in UTC, as 2024-01-31 or 2024-01-31T06:00:00Z
      --to <T>            The last moment at which an interval may start, in UTC, as 2024-01-31 or 2024-01-31T06:00:00Z
      --on <DAYS>         In place of both, the days on which an interval starts by the graph's zone, as 2024-01-31 or 2024-01-01..2024-01-31
      --some              Refuses a range in which no interval starts
      --workers <N>       How many tries may run at once, 1 to 64; 1 where this isn't given
      --progress          Tells on standard error how far the runs are, at most once a second
      --out <PATH>        Writes the report to this file, whole or not at all, in place of standard output
      --launcher <PATH>   Hands the words of each task's command to this program; without it the first word is the program
      --logs <FOLDER>     Keeps below this folder what each try writes and what it was given
      --journal <PATH>    Records each try in this file as it ends; where it has some, goes on from them
      --stop-after <N>    Begins no further try behind N failed ones; needs a journal
      --retry-failed      Makes the failed tries of the journal again, of what hasn't succeeded since
      --quiet             Tells neither progress nor which tries fail
  -h, --help              Print help

Examples, the first of which makes the report of the others:
  backfill run --from 2024-01-01 --to 2024-01-07 examples/extract_transform_load/graph.json > report
  backfill clear --from 2024-01-01 --to 2024-01-07 --task load --run 2024-01-03 examples/extract_transform_load/graph.json report
  backfill clear --from 2024-01-01 --to 2024-01-07 --failed --plan examples/extract_transform_load/graph.json report
HELP
answers 0 show --help <<'HELP'
Shows a report as a grid of characters, a column for each run and a row for each task

Usage: backfill show [OPTIONS] [GRAPH] [REPORT]

Arguments:
  [GRAPH]   The task graph, a JSON file
  [REPORT]  The report to show

Options:
      --zone-file <PATH>  The zone file that the graph's zone `file` means, as of the tz database
      --from <T>          Shows the runs from this moment on, in UTC, as 2024-01-31 or 2024-01-31T06:00:00Z
      --to <T>            Shows the runs up to this moment, in UTC, as 2024-01-31 or 2024-01-31T06:00:00Z
      --failed            Shows only tasks and runs with something that failed, upstream_failed or has no status
      --width <N>         The width in characters, 20 to 10,000; that of COLUMNS where this isn't given, or 80
      --color <WHEN>      When to colour: auto, always or never; auto where this isn't given, which is on a terminal without NO_COLOR
      --json <REPORT>     In place of a grid, prints a JSON object of each task instance of this report, a line each; needs no graph
  -h, --help              Print help

Examples:
  backfill show examples/failed_day/graph.json examples/failed_day/report.txt
  backfill show --json examples/failed_day/report.txt > instances.jsonl
HELP
answers 0 page --help <<'HELP'
Writes a page that shows a report: its runs and tasks as a grid, the graph, and why each task has its state

Usage: backfill page [OPTIONS] <GRAPH> <REPORT>

Arguments:
  <GRAPH>   The task graph, a JSON file
  <REPORT>  The report to show

Options:
      --zone-file <PATH>  The zone file that the graph's zone `file` means, as of the tz database
      --states-only       Leaves the report out of the page, which then has states and reasons, but no tries and values
      --journal <PATH>    Adds from this journal of the runs when each try started, how long it took, and its exit code
  -h, --help              Print help

Example:
  backfill page examples/failed_day/graph.json examples/failed_day/report.txt > page.html
HELP
answers 0 explain --help <<'HELP'
Tells why a task of a run, or a run, has its state

Usage: backfill explain [OPTIONS] --run <T> <GRAPH> <REPORT>

Arguments:
  <GRAPH>   The task graph, a JSON file
  <REPORT>  The report that has it

Options:
      --zone-file <PATH>  The zone file that the graph's zone `file` means, as of the tz database
      --run <T>           The logical date of the run, in UTC, as 2024-01-31 or 2024-01-31T06:00:00Z
      --task <ID>         The task; without it the run is explained
      --index <N>         The map index of one instance of an expanded task; needs --task
  -h, --help              Print help

Examples:
  backfill explain --task publish --run 2024-03-05 examples/failed_day/graph.json examples/failed_day/report.txt
  backfill explain --run 2024-03-05 examples/failed_day/graph.json examples/failed_day/report.txt
HELP
answers 0 answers --help <<'HELP'
Prints the table of answers over which a dry backfill has a report again

Usage: backfill answers <REPORT>

Arguments:
  <REPORT>  The report

Options:
  -h, --help  Print help

Example:
  backfill answers examples/failed_day/report.txt > table.json
HELP
answers 0 schema --help <<'HELP'
Prints the JSON Schema of graph files or tables, for editors

Usage: backfill schema <FORMAT>

Arguments:
  <FORMAT>  The format of the files, graph or table

Options:
  -h, --help  Print help

Example:
  backfill schema graph > graph.schema.json
HELP
answers 0 completions --help <<'HELP'
Prints what a shell completes of a command line

Usage: backfill completions <SHELL>

Arguments:
  <SHELL>  The shell, bash, zsh or fish

Options:
  -h, --help  Print help

Example, of a file for bash to source:
  backfill completions bash > backfill.bash
HELP
cat > help <<'HELP'
Runs the graph once, answering each task from a table

Usage: backfill single [OPTIONS] --at <T> <GRAPH> <TABLE>

Arguments:
  <GRAPH>  The task graph, a JSON file
  <TABLE>  The answers of the tasks' tries, a JSON file

Options:
      --zone-file <PATH>  The zone file that the graph's zone `file` means, as of the tz database
      --at <T>            The run's moment in UTC, as 2024-01-31 or 2024-01-31T06:00:00Z
      --out <PATH>        Writes the report to this file, whole or not at all, in place of standard output
  -h, --help              Print help

Example:
  backfill single --at 2024-01-01 examples/skip/graph.json examples/skip/table.json
HELP
answers 0 single --help < help
answers 0 single g -h < help
answers 0 help single < help

# A wrong line: behind the arrow stand the lines by which clap begins its answer on standard error, each ended by a bar.

is_wrong() {
    local begins=${2%|} status=0 words
    begins=${begins//|/$'\n'}
    read -ra words <<< "$1"
    "$program" "${words[@]}" > out 2> err || status=$?
    is_same "of the wrong line $1" "2 |$begins" "$status $(< out)|$(head -c "${#begins}" err)"
}
while IFS= read -r row; do
    is_wrong "${row%% => *}" "${row##* => }"
done <<'ROWS'
check => error: the following required arguments were not provided:|  <GRAPH>|
check g h => error: unexpected argument 'h' found|
list g => error: the following required arguments were not provided:|  --from <T> and --to <T>, or --on <DAYS>|
check g --zone-file => error: a value is required for '--zone-file <PATH>' but none was supplied|
clear => error: the following required arguments were not provided:|  <GRAPH>|  <REPORT>|
clear g r => error: the following required arguments were not provided:|  --task <ID> and --run <T>, or --seeds <PATH>, or --failed|
clear g r --plan --on 2024-01-01 => error: the following required arguments were not provided:|  --task <ID> and --run <T>, or --seeds <PATH>, or --failed|
clear g r --failed --task a => error: only one of '--task <ID>' with '--run <T>', '--seeds <PATH>' and '--failed' can be used|
clear g r --failed --index 0 => error: only one of '--task <ID>' with '--run <T>', '--seeds <PATH>' and '--failed' can be used|
clear g r --failed --seeds s => error: only one of '--task <ID>' with '--run <T>', '--seeds <PATH>' and '--failed' can be used|
clear g r --seeds s --run 2024-01-01 => error: only one of '--task <ID>' with '--run <T>', '--seeds <PATH>' and '--failed' can be used|
clear g r --task a --on 2024-01-01 => error: each '--task <ID>' needs a '--run <T>', and each '--run <T>' a '--task <ID>'|
clear g r --run 2024-01-01 => error: each '--task <ID>' needs a '--run <T>', and each '--run <T>' a '--task <ID>'|
clear g r --task a --run 2024-01-01 --task b --on 2024-01-01 => error: each '--task <ID>' needs a '--run <T>', and each '--run <T>' a '--task <ID>'|
clear g r --index 1 => error: as many '--index <N>' are needed as '--task <ID>', or none|
clear g r --task a --run 2024-01-01 --index 1 --index 2 => error: as many '--index <N>' are needed as '--task <ID>', or none|
clear g r --task a --run 2024-01-01 --task b --run 2024-01-01 --index 1 => error: as many '--index <N>' are needed as '--task <ID>', or none|
clear g r --task a --run 2024-01-01 --index x => error: invalid value 'x' for '--index <N>': invalid digit found in string|
clear g r --task a --run 2024-01-01 --index=-2 => error: invalid value '-2' for '--index <N>': -2 is not in -1..=2147483647|
clear g r --failed => error: the following required arguments were not provided:|  --from <T> and --to <T>, or --on <DAYS>|
clear g r --failed --failed => error: the argument '--failed' cannot be used multiple times|
page g => error: the following required arguments were not provided:|  <REPORT>|
page g r s => error: unexpected argument 's' found|
page g r --journal => error: a value is required for '--journal <PATH>' but none was supplied|
page g r --journal j --journal j => error: the argument '--journal <PATH>' cannot be used multiple times|
page g r --states-only --states-only => error: the argument '--states-only' cannot be used multiple times|
show => error: the following required arguments were not provided:|  <GRAPH> and <REPORT>, or --json <REPORT>|
show g => error: the following required arguments were not provided:|  <GRAPH> and <REPORT>, or --json <REPORT>|
show g r s => error: unexpected argument 's' found|
show g r --width 19 => error: invalid value '19' for '--width <N>': 19 is not in 20..=10000|
show g r --width 10001 => error: invalid value '10001' for '--width <N>': 10001 is not in 20..=10000|
show g r --width x => error: invalid value 'x' for '--width <N>': invalid digit found in string|
show g r --color red => error: invalid value for '--color <WHEN>'|  [possible values: auto, always, never]|
show g r --from 2024-01-01 --from 2024-01-01 => error: the argument '--from <T>' cannot be used multiple times|
show g r --json r => error: the argument '--json <REPORT>' cannot be used with another|
show --json r --failed => error: the argument '--json <REPORT>' cannot be used with another|
show --json r --color never => error: the argument '--json <REPORT>' cannot be used with another|
show --json => error: a value is required for '--json <REPORT>' but none was supplied|
show --json r --json s => error: the argument '--json <REPORT>' cannot be used multiple times|
run g --from 2024-01-01 --to 2024-01-01 --launcher => error: a value is required for '--launcher <PATH>' but none was supplied|
single g t --at 2024-01-01 --launcher on => error: unexpected argument '--launcher' found|
run g --on 2024-01-01 --keep => error: a value is required for '--keep <REPORT>' but none was supplied|
dry g t --keep r => error: the following required arguments were not provided:|  --from <T> and --to <T>, or --on <DAYS>|
run g --on 2024-01-01 --keep r --keep s => error: the argument '--keep <REPORT>' cannot be used multiple times|
single g t --at 2024-01-01 --keep r => error: unexpected argument '--keep' found|
clear g r --failed --on 2024-01-01 --keep r => error: unexpected argument '--keep' found|
run g --from 2024-01-01 --to 2024-01-01 --logs => error: a value is required for '--logs <FOLDER>' but none was supplied|
run g --from 2024-01-01 --to 2024-01-01 --logs= => error: a value is required for '--logs <FOLDER>' but none was supplied|
clear g r --failed --on 2024-01-01 --logs= => error: a value is required for '--logs <FOLDER>' but none was supplied|
run g --logs= --retry-failed --on 2024-01-01 => error: the following required arguments were not provided:|  --journal <PATH>|
run g --on 2024-01-01 --out g => error: the argument '--out <PATH>' cannot name a file that the command reads, or its journal|
run g --on 2024-01-01 --journal j --out j => error: the argument '--out <PATH>' cannot name a file that the command reads, or its journal|
dry g t --on 2024-01-01 --out t => error: the argument '--out <PATH>' cannot name a file that the command reads, or its journal|
single g t --at 2024-01-01 --zone-file z --out z => error: the argument '--out <PATH>' cannot name a file that the command reads, or its journal|
clear g r --seeds s --on 2024-01-01 --out s => error: the argument '--out <PATH>' cannot name a file that the command reads, or its journal|
clear g r --seeds s --out s => error: the argument '--out <PATH>' cannot name a file that the command reads, or its journal|
dry g t --from 2024-01-01 --to 2024-01-01 --logs l => error: unexpected argument '--logs' found|
single g t --at 2024-01-01 --quiet => error: unexpected argument '--quiet' found|
run g --from 2024-01-01 --to 2024-01-01 --journal => error: a value is required for '--journal <PATH>' but none was supplied|
dry g t --from 2024-01-01 --to 2024-01-01 --journal j => error: unexpected argument '--journal' found|
run g --from 2024-01-01 --to 2024-01-01 --journal j --stop-after 0 => error: invalid value '0' for '--stop-after <N>': 0 is not in 1..=4294967295|
run g --from 2024-01-01 --to 2024-01-01 --stop-after 1 => error: the following required arguments were not provided:|  --journal <PATH>|
run g --from 2024-01-01 --to 2024-01-01 --retry-failed => error: the following required arguments were not provided:|  --journal <PATH>|
clear g r --task a --run 2024-01-01 --from 2024-01-01 --to 2024-01-01 --retry-failed => error: the following required arguments were not provided:|  --journal <PATH>|
answers => error: the following required arguments were not provided:|  <REPORT>|
answers r s => error: unexpected argument 's' found|
answers r --out t => error: unexpected argument '--out' found|
schema => error: the following required arguments were not provided:|  <FORMAT>|
schema report => error: invalid value for '<FORMAT>'|  [possible values: graph, table]|
schema graph table => error: unexpected argument 'table' found|
completions => error: the following required arguments were not provided:|  <SHELL>|
completions ksh => error: invalid value for '<SHELL>'|  [possible values: bash, zsh, fish]|
resume => error: unrecognized subcommand 'resume'|
run g --from 2024-01-01 => error: the following required arguments were not provided:|  --from <T> and --to <T>, or --on <DAYS>|
dry g t --to 2024-01-01 --some => error: the following required arguments were not provided:|  --from <T> and --to <T>, or --on <DAYS>|
clear g r --task a --run 2024-01-01 => error: the following required arguments were not provided:|  --from <T> and --to <T>, or --on <DAYS>|
run g --retry-failed => error: the following required arguments were not provided:|  --from <T> and --to <T>, or --on <DAYS>|
list g --on 2024-01-01 --from 2024-01-01 => error: the argument '--on <DAYS>' cannot be used with '--from <T>' or '--to <T>'|
dry g t --on 2024-01-01 --to 2024-01-01 => error: the argument '--on <DAYS>' cannot be used with '--from <T>' or '--to <T>'|
run g --on 2024-01-01 --from 2024-01-01 --to 2024-01-01 => error: the argument '--on <DAYS>' cannot be used with '--from <T>' or '--to <T>'|
clear g r --task a --run 2024-01-01 --on 2024-01-01 --to 2024-01-01 => error: the argument '--on <DAYS>' cannot be used with '--from <T>' or '--to <T>'|
run g --on 2024-01-01 --retry-failed => error: the following required arguments were not provided:|  --journal <PATH>|
list g --on => error: a value is required for '--on <DAYS>' but none was supplied|
list g --on 2024-01-01 --on 2024-01-02 => error: the argument '--on <DAYS>' cannot be used multiple times|
single g t --at 2024-01-01 --on 2024-01-01 => error: unexpected argument '--on' found|
check g --some => error: unexpected argument '--some' found|
list g --on 2024-01-01 --explain => error: unexpected argument '--explain' found|
--at 2024-01-01 => error: unexpected argument '--at' found|
single => error: the following required arguments were not provided:|  --at <T>|  <GRAPH>|  <TABLE>|
single g t => error: the following required arguments were not provided:|  --at <T>|
single --at 2024-01-01 => error: the following required arguments were not provided:|  <GRAPH>|  <TABLE>|
single g --at 2024-01-01 => error: the following required arguments were not provided:|  <TABLE>|
single g t u --at 2024-01-01 => error: unexpected argument 'u' found|
single g t --at 2024-01-01 --workers 2 => error: unexpected argument '--workers' found|
run --workers 0 => error: invalid value '0' for '--workers <N>': 0 is not in 1..=64|
dry --workers 65 => error: invalid value '65' for '--workers <N>': 65 is not in 1..=64|
single g t -x => error: unexpected argument '-x' found|
single g t --at => error: a value is required for '--at <T>' but none was supplied|
single g t --at 2024-01-01 --at 2024-01-02 => error: the argument '--at <T>' cannot be used multiple times|
run -V => error: unexpected argument '-V' found|
ROWS
"$program" $'\e[31m\u202e' > out 2> err || true
is_same 'of a word that a terminal would act on' "error: unrecognized subcommand '\\u001b[31m\\u202e'" "$(head -n 1 err)"
for line in $'check \xff' $'\xff g' $'dry g t --workers \xff'; do
    is_wrong "$line" 'error: invalid UTF-8 was detected in one or more arguments|'
done

# Which files a command reads, and which of several faults it tells.

echo '{"dag_id":"d","schedule":"@daily","tasks":[{"id":"a"}]}' > one
echo '{"dag_id":"d","schedule":"@daily","zone":"file","tasks":[{"id":"a"}]}' > zoned
echo '{"dag_id":"d","schedule":"@yearly","tasks":[]}' > yearly
echo '{' > broken
echo '{}' > shapeless
echo '{"dag_id":"d","schedule":"@daily","tasks":[{"id":"b","kind":"branch"},{"id":"t","kind":"branch","upstream":["b"],"expand":"b"}]}' > misused
echo '{"dag_id":"d","schedule":"@daily","tasks":[{"id":"a","upstream":["a"]}]}' > cycle
echo '{"dag_id":"d","schedule":"0 0 30 2 *","zone":"utc","tasks":[]}' > never
# As a report, this breaks off: it has no end of a line.
printf '[]' > table
echo '[{},2]' > bad_table
# A zone file as of the tz database (RFC 8536, version 2): an hour ahead of UTC, called CET.
for block in 1 2; do
    printf TZif2
    head -c 34 /dev/zero
    printf '\x01\0\0\0\x04\0\0\x0e\x10\0\0CET\0'
done > cet
printf '\nCET-1\n' >> cet
printf TZif > no_zone
while IFS= read -r row; do
    [[ $row != '#'* ]] || continue
    read -ra words <<< "${row%% => *}"
    read -r status line <<< "${row##* => }"
    if [[ $status == 0 ]]; then
        answers 0 "${words[@]}" <<< "$line"
    else
        tells "$status" "$line" "${words[@]}"
    fi
done <<'ROWS'
# Moments come first.
single none table --at 2024-02-30 => 2 refused 28 bad moment
single broken bad_table --at 2024-02-30 => 2 refused 28 bad moment
list none --from 2024-02-30 --to 2024-01-01 => 2 refused 28 bad moment
run none --from 2024-01-01 --to 2024-02-30 => 2 refused 28 bad moment
clear none none --task a --run 2024-02-30 --from 2024-01-01 --to 2024-01-01 => 2 refused 28 bad moment
list none --on 2024-02-30 => 2 refused 28 bad moment
list none --on 2024-01-01T06:00:00Z => 2 refused 28 bad moment
dry none none --on 2024-01-01.. => 2 refused 28 bad moment
run none --on 2024-01-01..2024-02-30 => 2 refused 28 bad moment
run none --on 2024-01-01...2024-01-02 => 2 refused 28 bad moment
clear none none --task a --run 2024-01-01 --on today => 2 refused 28 bad moment
clear none none --task a --run 2024-02-30 --on 2024-01-01 => 2 refused 28 bad moment
# Then the files are read: the graph, the zone file, and the table.
check none => 3 fault: cannot read none
single none none --at 2024-01-01 => 3 fault: cannot read none
single none table --at 2200-01-01 => 3 fault: cannot read none
single broken none --at 2200-01-01 => 3 fault: cannot read none
check none --zone-file absent => 3 fault: cannot read none
check one --zone-file absent => 3 fault: cannot read absent
single broken none --at 2024-01-01 --zone-file absent => 3 fault: cannot read absent
clear broken none --task a --run 2024-01-01 --from 2024-01-01 --to 2024-01-01 --table none => 3 fault: cannot read none
# Then what they hold: the graph file, its graph, the table, and last the range.
single broken bad_table --at 2200-01-01 => 2 refused 1 not json
single shapeless bad_table --at 2200-01-01 => 2 refused 2 shape: dag_id
single cycle bad_table --at 2200-01-01 => 2 refused 7 cycle: a
single never bad_table --at 2200-01-01 => 2 refused 12 never fires
single misused bad_table --at 2200-01-01 => 2 refused 17 branch misuse: t
single one bad_table --at 2200-01-01 => 2 refused 19 bad table: 1
dry one bad_table --from 2024-01-02 --to 2024-01-01 => 2 refused 19 bad table: 1
single one table --at 2200-01-01 => 2 refused 25 outside years
list one --from 2200-01-01 --to 2024-01-01 => 2 refused 25 outside years
list one --from 2024-01-02 --to 2024-01-01 => 2 refused 26 range reversed
dry one table --from 2024-01-02 --to 2024-01-01 => 2 refused 26 range reversed
run one --from 2024-01-02 --to 2024-01-01 => 2 refused 26 range reversed
dry one bad_table --on 2024-01-02..2024-01-01 --some => 2 refused 19 bad table: 1
list one --on 1969-12-31..2024-01-01 => 2 refused 25 outside years
list one --on 2200-01-01..2024-01-01 => 2 refused 25 outside years
dry one table --on 2024-01-02..2024-01-01 => 2 refused 26 range reversed
run one --on 2024-01-02..2024-01-01 --some => 2 refused 26 range reversed
# Of a range without runs, where there have to be some.
list one --from 2024-01-01T00:00:01Z --to 2024-01-01T23:59:59Z --some => 2 refused 29 no runs
dry one table --from 2024-01-01T00:00:01Z --to 2024-01-01T23:59:59Z --some => 2 refused 29 no runs
dry one bad_table --from 2024-01-01T00:00:01Z --to 2024-01-01T23:59:59Z --some => 2 refused 19 bad table: 1
run one --from 2024-01-01T00:00:01Z --to 2024-01-01T23:59:59Z --some => 2 refused 29 no runs
run one --from 2024-01-01T00:00:01Z --to 2024-01-01T23:59:59Z --some --journal none/journal => 2 refused 29 no runs
clear one none --task q --run 2024-01-01 --from 2024-01-01T00:00:01Z --to 2024-01-01T23:59:59Z --some => 2 refused 29 no runs
list yearly --on 2024-01-02..2024-12-31 --some => 2 refused 29 no runs
list yearly --on 2024-01-01..2024-12-31 --some => 0 2024-01-01T00:00:00Z 2025-01-01T00:00:00Z
clear one none --task q --run 2024-01-01 --from 2024-01-02 --to 2024-01-01 --table table => 2 refused 26 range reversed
# The report of clear comes last, and then the seed.
clear one none --task q --run 2024-01-01 --from 2024-01-01 --to 2024-01-01 => 3 fault: cannot read none
clear one table --task q --run 2024-01-01 --from 2024-01-01 --to 2024-01-01 => 2 refused 32 truncated
# A zone file is looked at for the zone of the file alone.
check zoned => 2 refused 13 bad zone
check zoned --zone-file no_zone => 2 refused 13 bad zone
check zoned --zone-file cet => 0 ok 1 tasks, 0 edges
check one --zone-file no_zone => 0 ok 1 tasks, 0 edges
single zoned table --at 2024-01-01 => 2 refused 13 bad zone
list zoned --zone-file cet --from 2024-01-01 --to 2024-01-01T23:59:59Z => 0 2024-01-01T23:00:00Z 2024-01-02T23:00:00Z
# An empty file, one without an end, none, and a folder.
single /dev/null /dev/null --at 2024-01-01 => 2 refused 1 not json
single /dev/zero /dev/null --at 2024-01-01 => 2 refused 5 limit passed: bytes
single /no/gräph.json /dev/null --at 2024-01-01 => 3 fault: cannot read /no/gräph.json
single /dev/null /dev --at 2024-01-01 => 3 fault: cannot read /dev
ROWS

# All that is wrong with a graph is told behind the refusal, and nothing else changes by it.

# The graph file, checked so, ends in this status with the lines on standard input on standard error.
is_explained() {
    local status=$1
    shift
    : > "$work/wanted_out"
    cat > "$work/wanted_err"
    ends "$status" check --explain "$@"
}
printf '{"dag_id":' > cut
is_explained 2 cut <<'LINES'
refused 1 not json
bytes: not JSON: line 1, column 10
LINES
cat > wrong <<'JSON'
{"dag_id":"d","schedule_interval":"@daily","tasks":[
  {"id":"Extract"},
  {"id":"b","upstream":["EXTRACT","ectract","x"],"TRIGGER_RULE":"all_done","retries":"3"},
  {"id":"b"}]}
JSON
is_explained 2 wrong <<'LINES'
refused 2 shape: top
schedule: missing: has to be five fields of cron that some day matches, or @hourly, @daily, @weekly, @monthly, @quarterly or @yearly
top: unknown key "schedule_interval": did you mean "schedule"?
tasks[1].retries: "3": has to be a whole number from 0 to 100
tasks[1]: unknown key "TRIGGER_RULE": did you mean "rule"?
tasks[1].upstream[0]: "EXTRACT": did you mean "Extract"?
tasks[1].upstream[1]: "ectract": did you mean "Extract"?
tasks[1].upstream[2]: "x": has to be the id of a task
tasks[2].id: "b": has to be an id of 1 to 250 letters, digits, dashes, dots and underscores that no task before has
LINES
tells 2 'refused 2 shape: top' check wrong
is_explained 2 cycle <<'LINES'
refused 7 cycle: a
cycle: a: each comes after the one before it, and the first after the last
LINES
is_explained 3 none <<< 'fault: cannot read none'
answers 0 check --explain one <<< 'ok 1 tasks, 0 edges'
# Nothing that a terminal obeys, or doesn't show, goes to it: an 8-bit control sequence, and what turns the direction of a line.
printf '{"dag_id":"d","schedule":"@daily","tasks":[{"id":"\xc2\x9b31m","\xe2\x80\xae":1,"upstream":["\xc2\x9b31n"]}]}' > unseen
is_explained 2 unseen <<'LINES'
refused 2 shape: tasks[0]
tasks[0].id: "\u009b31m": has to be an id of 1 to 250 letters, digits, dashes, dots and underscores that no task before has
tasks[0]: unknown key "\u202e": a task has the keys id, upstream, rule, kind, command, expand, depends_on_past, retries, retry_delay, pool, pool_slots, priority_weight and weight_rule
tasks[0].upstream[0]: "\u009b31n": has to be the id of a task
LINES
# Of many faults a hundred are told, and soon.
{
    printf '{"dag_id":"d","schedule":"@daily","tasks":[{"id":"a","upstream":["x0"'
    printf ',"x%d"' {1..999}
    printf ']}]}'
} > many
{
    echo 'refused 6 unknown upstream: a'
    printf 'tasks[0].upstream[%d]: "x%d": has to be the id of a task\n' $(for ((n = 0; n < 100; n++)); do echo "$n $n"; done)
    echo 'and more'
} | is_explained 2 many

sum
