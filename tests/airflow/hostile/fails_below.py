# status 2
# says refused: hostile/fails_below.py:6: the DAG file fails: ZeroDivisionError
def compute():
    import fractions

    return fractions.Fraction(1) / 0


compute()
