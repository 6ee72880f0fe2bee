# status 2
# says refused: hostile/interrupts.py:3: the DAG file fails: KeyboardInterrupt
raise KeyboardInterrupt
