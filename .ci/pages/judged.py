"""What was tried, and whether it held."""
PASSED, FAILED = [], []


def judge(holds, name):
    (PASSED if holds else FAILED).append(name)
    if not holds:
        print(f"failed: {name}", flush=True)
