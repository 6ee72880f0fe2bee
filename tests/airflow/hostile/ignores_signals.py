# graph --import-timeout 1
# status 2
# says refused: hostile/ignores_signals.py
import signal
import time

for each in (signal.SIGTERM, signal.SIGINT):
    signal.signal(each, signal.SIG_IGN)
time.sleep(3600)
