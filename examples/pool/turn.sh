# Prints which turn at the database this is, of those in one backfill: 1, 2 and on. Fails where another program has the database.
turns=${TMPDIR:-/tmp}/turns.$PPID
mkdir -p "$turns"
mkdir "$turns/taken" || exit 1
sleep 0.1
echo >> "$turns/list"
wc -l < "$turns/list"
rmdir "$turns/taken"
