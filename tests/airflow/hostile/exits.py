# status 2
# says refused: hostile/exits.py:5: the DAG file ends Python by sys.exit(0)
import sys

sys.exit(0)
