"""What the tests of this folder have in common that look for faults and report each."""


def is_absent(test, program):
    """Whether a program isn't built, and says so."""
    if program.exists():
        return False
    print(f"{test}: there is no {program}: run 'make' first")
    return True


def status_of(test, faults, sums):
    """Prints each fault, and what was tried; gives the status."""
    for fault in faults:
        print(f"{test}: {fault}")
    print(f"{test}: {sums}")
    return 1 if faults else 0
