"""check NAME ARGUMENTS..: one of the checks of tests/story; ends with 0 where it holds."""

import sys

sys.dont_write_bytecode = True

import pages  # noqa: E402
import runs  # noqa: E402
import stories  # noqa: E402
import wrongs  # noqa: E402

CHECKS = {name: check for part in (stories, wrongs, pages) for name, check in vars(part).items() if name.startswith("the_")}
CHECKS.update(random_runs=runs.random_runs, damaged_runs=runs.damaged_runs)

if __name__ == "__main__":
    try:
        CHECKS[sys.argv[1]](*sys.argv[2:])
    except AssertionError as wrong:
        sys.exit(str(wrong) or "it does not hold")
