"""How a check ends."""


def ended(faults):
    """Prints the faults, and returns the exit status: 0 if there are none."""
    said = list(faults)
    print("\n".join(said), end="\n" if said else "")
    return 1 if said else 0
