# A program of a task: prints how many descriptors and threads its runner has, and how many dead children.
# The runner may still be closing its ends of what this program was started with.
sleep 0.3
descriptors=$(ls "/proc/$PPID/fd" | wc -l)
threads=$(ls "/proc/$PPID/task" | wc -l)
dead=$(cat /proc/[0-9]*/stat 2> /dev/null | grep -c ") Z $PPID ")
echo "$descriptors $threads $dead"
