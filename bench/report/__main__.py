"""Makes TABLE.md and the plots of a folder from its results.csv: python3 bench/report FOLDER."""

import platform
import subprocess
import sys

import plots
import results
import tables


def first_line(command):
    done = subprocess.run(command, capture_output=True, text=True, check=False)
    return done.stdout.splitlines()[0] if done.stdout else command[0]


def processor():
    """Its name with family and model, since one name covers several kinds."""
    with open("/proc/cpuinfo") as file:
        lines = [line.split(":", 1) for line in file if ":" in line]
    facts = {name.strip(): value.strip() for name, value in lines}
    if "model name" not in facts:
        return platform.machine()
    cores = sum(name.strip() == "model name" for name, _ in lines)
    return f"{facts['model name']} (family {facts['cpu family']}, model {facts['model']}), {cores} cores"


def main():
    folder = sys.argv[1]
    measurements = results.read(f"{folder}/results.csv")
    machine = f"On {processor()}; {first_line(['g++', '--version'])}; {first_line(['rustc', '--version'])}."
    tables.write(f"{folder}/TABLE.md", measurements, machine)
    plots.write_all(folder, measurements)


main()
