"""Files as bytes, the words of a network, and how a script ends, for the scripts beside this one."""
import os


def bytes_of(file):
    with open(file, "rb") as it:
        return it.read()


def write(file, content=b""):
    with open(file, "wb") as it:
        it.write(content)


def network_in(folder):
    """The words that name the network of a folder: its two tables, and its table of settings, if it has one."""
    setup = f"{folder}/setup.csv"
    return [f"{folder}/nodes.csv", f"{folder}/pdos.csv", *(["--setup", setup] if os.path.exists(setup) else [])]


def status_of(faults):
    """Tells faults, or that there are none, and gives the status to end with."""
    for fault in faults:
        print(fault)
    print("ok" if not faults else f"{len(faults)} faults")
    return 1 if faults else 0
