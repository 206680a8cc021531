"""Lines of the desk tried beforehand, so that a slip of the learner's ends no desk.

They are tried by the program itself, at a device of a lab: a collection in memory that ends with the run. So no rule is
written a second time here. The lab begins with the note types 1 to 3, deck 1 and options 1, and its clock stands still: the
first row that is added to any table has the id FIRST_ID.
"""

import re
import subprocess

FIRST_ID = 1_700_000_000_000


def refusal_of(program, *lines):
    """What the program says of the first of these lines that it refuses, or None."""
    script = "device A\n" + "".join("do A %s\n" % line for line in lines)
    run = subprocess.run(
        [program, "-", "-", "lab"],
        input=script.encode("utf-8"),
        stdout=subprocess.PIPE,
        start_new_session=True,
        check=False,
    )
    if run.returncode == 0:
        return None
    last = run.stdout.decode("utf-8", "replace").rstrip("\n").rsplit("\n", 1)[-1]
    told = re.match(r"line \d+: (.*)\Z", last)
    return told.group(1) if told else "the program ended with status %d" % run.returncode
