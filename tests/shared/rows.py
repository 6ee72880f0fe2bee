"""The rows of a script, counted: how many hold, and how many don't."""
rows = differing = 0


def holds(name, right):
    """Counts a row, and names it where it isn't right."""
    global rows, differing
    rows += 1
    if not right:
        differing += 1
        print(f"differs: {name}")


def tell():
    """Prints how many rows are right, and how many not."""
    print(rows - differing, differing)
