"""Says how the prover is called for a crate of a repository, over the crates below it as they are built.

`rt check` builds each of them anew, with its proofs, unless it was built by such a command before; and what `rt ci` builds,
which has the statements alone, it takes for nothing.
"""

import functools
import os
import subprocess


@functools.cache
def kit():
    """The folder of the toolchain."""
    return os.path.dirname(subprocess.run(["rt", "doc"], stdout=subprocess.PIPE, check=True, text=True).stdout.strip())


def jobs():
    """How many modules a check works on at a time: two where two crates can be tried beside `rt ci`."""
    return 2 if len(os.sched_getaffinity(0)) >= 4 else 1


def check_words(root, name, libraries, below):
    """The command that checks a crate in its folder, over what is kept of it, if anything is. `libraries` are those that crates.txt
    names, and `below` the repository's crates among them and below those."""
    rlibs = {it: f"{root}/crates/{it}/out/rlib" for it in below}
    top = "main" if os.path.isfile(f"{root}/crates/{name}/src/main.rt") else "lib"
    words = ["rattle", "check", "--crate-name", name, f"src/{top}.rt"]
    for it in ("std", *libraries):
        words += ["--extern", f"{it}={rlibs.get(it, f'{kit()}/rlibs')}/{it}.rlib"]
    for folder in (f"{kit()}/rlibs", *rlibs.values()):
        words += ["-L", f"dependency={folder}"]
    logic = ["--antt-project", f"{kit()}/rattle/logic/antt-project.json", "--logic-built", f"{kit()}/logic_built"]
    # To keep work that no other check takes would cost time.
    kept = ["--incremental", "out/incremental"] * os.path.isdir(f"{root}/crates/{name}/out/incremental")
    return [*words, *logic, *kept, "--jobs", str(jobs())]
