"""Counts what is as expected, and prints what is not."""

passed = failed = 0


def expect(what, given, expected):
    global passed, failed
    if given == expected:
        passed += 1
        return
    failed += 1
    print("%s\n  expected %r\n  given    %r" % (what, expected, given))


def end(name):
    """The last line, and the status."""
    print("%s: %d as expected, %d not" % (name, passed, failed))
    return 1 if failed or not passed else 0
