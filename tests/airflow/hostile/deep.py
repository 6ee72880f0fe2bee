# status 2
# says refused: hostile/deep.py:4: the DAG file fails: RecursionError
def deeper(n):
    return deeper(n + 1)


deeper(0)
