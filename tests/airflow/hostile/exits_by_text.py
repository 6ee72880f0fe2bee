# status 2
# says refused: hostile/exits_by_text.py:6: the DAG file
# says no database today
import sys

sys.exit("no database today")
