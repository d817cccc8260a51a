"""What the scripts that watch a build or a gate share: the processes of a command, and what they take."""
import os


def descendants(top):
    """Returns the processes that a process started, and those that they did."""
    children = {}
    for pid in filter(str.isdigit, os.listdir("/proc")):
        try:
            with open(f"/proc/{pid}/stat", encoding="utf-8", errors="replace") as it:
                children.setdefault(int(it.read().rpartition(")")[2].split()[1]), []).append(int(pid))
        except (OSError, IndexError):
            pass
    found = [top]
    for it in found:
        found += children.get(it, [])
    return found[1:]


def bytes_of(pid):
    """Returns a process's share of memory."""
    try:
        with open(f"/proc/{pid}/smaps_rollup", encoding="utf-8") as it:
            return next((int(line.split()[1]) * 1024 for line in it if line.startswith("Pss:")), 0)
    except OSError:
        return 0
