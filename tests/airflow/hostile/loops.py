# graph --import-timeout 1
# status 2
# says refused: hostile/loops.py
# says 1 s
while True:
    pass
