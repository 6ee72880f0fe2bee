# graph --import-timeout 1
# status 2
# says refused: hostile/loops_and_catches.py
import time

while True:
    try:
        time.sleep(0.01)
    except Exception:
        pass
