"""What a test of rows tells: each row that does not hold, and at last 'N passed, M failed'."""


def tell(rows):
    """Tells of rows (name, whether it holds), and gives the status that a program ends with."""
    passed = failed = 0
    for name, holds in rows:
        passed += bool(holds)
        failed += not holds
        if not holds:
            print(f"FAILED: {name}")
    print(f"{passed} passed, {failed} failed")
    return 1 if failed or not passed else 0
