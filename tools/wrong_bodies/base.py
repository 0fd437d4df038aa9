"""Proves crates as they are in a copy, and builds those below others there, before any wrong body is tried over them."""

import os

from crate import OF_CRATE, say
from sources import copy_crates, files_of, sum_of


def is_built(crate, root):
    """Whether the crate was built after its sources, and those of the crates below it, were last written."""
    built = f"{root}/crates/{crate.name}/out/rlib/{crate.name}.rlib"
    sources = (file for name in [*crate.below, crate.name] for file in files_of(f"{root}/crates/{name}"))
    return os.path.isdir(built) and os.path.getmtime(built) >= max(map(os.path.getmtime, sources))


def prove(crates, root, base, jobs, proved):
    """Builds the crates below others in a copy, over what earlier checks kept, and proves the others there. Where the copy has
    this sum of what was proved, only what isn't built is left to do. False where one is not proved."""
    copy_crates({it.name: (*OF_CRATE, "out/rlib") for it in crates}, root, base)
    low = {name for it in crates for name in it.below}
    is_proved = sum_of(base, [it.name for it in crates]) == proved
    if is_proved and all(is_built(it, base) for it in crates if it.name in low):
        return True
    for crate in crates:
        if is_proved and crate.name not in low:
            continue
        crate.room = base
        check = crate.run("rt", "lib" if crate.name in low else "check", "--jobs", str(jobs))
        say(f"{crate.name}: {'proved' if check.is_proved else 'NOT PROVED'} as it is, {crate.seconds:.0f} seconds")
        if not check.is_proved:
            say(check.text)
            return False
    return True
