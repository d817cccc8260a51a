"""What several scripts share: the crates of crates.txt, and the table of measured times."""
import os
import re

TOP = os.path.dirname(os.path.dirname(os.path.abspath(__file__)))
TIMES = f"{TOP}/scripts/proof_times"
PROGRAM = f"{TOP}/crates/cssrun/out/cssrun"


def read_crates():
    """Returns each crate of crates.txt with the crates that it stands on, in the order of the file."""
    found = {}
    with open(f"{TOP}/crates.txt", encoding="utf-8") as it:
        for line in it:
            head, colon, below = line.partition("#")[0].partition(":")
            if colon:
                found[head.split()[0]] = below.split()
    return {name: [it for it in below if it in found] for name, below in found.items()}


def program_crates():
    """Returns the crates that the program is made of, each behind those that it stands on."""
    crates, order = read_crates(), []

    def add(name):
        for it in crates[name]:
            add(it)
        if name not in order:
            order.append(name)

    add("cssrun")
    return order


def read_times():
    """Returns the measured processor seconds of each crate, and by processors the minutes and gigabytes of a whole build."""
    seconds, whole = {}, {}
    with open(TIMES, encoding="utf-8") as it:
        for line in it:
            words = line.partition("#")[0].split()
            if words[:1] == ["whole"] and len(words) == 4 and re.fullmatch(r"[\d.]+ [\d.]+", " ".join(words[2:])):
                whole[int(words[1])] = (float(words[2]), float(words[3]))
            elif len(words) == 2:
                seconds[words[0]] = float(words[1])
    return seconds, whole


def whole_build():
    """Says how long a whole build takes and in how much memory, by the measurement that is nearest to this machine."""
    seconds, whole = read_times()
    here = len(os.sched_getaffinity(0))
    at = max((it for it in whole if it <= here), default=min(whole, default=None))
    if at is None:
        minutes = sum(seconds.get(it, 0) for it in program_crates()) / 60
        return f"about {minutes:.0f} processor minutes"
    return f"about {whole[at][0]:.0f} minutes on {at} processors, in at most {whole[at][1]:.0f} GB"
