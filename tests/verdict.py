"""How a test that gathers faults ends."""


def verdict(test, faults, good):
    """Prints each fault, then the verdict, which is `good` where there is none; gives the exit status."""
    for fault in faults:
        print("%s: %s" % (test, fault))
    print("%s: %s" % (test, "FAILED, %d faults" % len(faults) if faults else good))
    return 1 if faults else 0
