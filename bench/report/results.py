"""The measurements, read from results.csv, and what is worked out of them."""

import csv
import math
from dataclasses import dataclass, field

ARCHIVE = "archive"
WHOLE_LISTS = "whole lists"
ALL_PAGES = "all pages"
FIRST_EDITION = "edition 1"
PLAIN_BITMAP = "plain bitmap"
LOWER_BOUND = "lower bound"
CONTENDERS = ["peer", "sdsl", "CRoaring", "galloping", WHOLE_LISTS, ALL_PAGES, FIRST_EDITION, PLAIN_BITMAP]
GROWTH = "growth with "


@dataclass
class Measurement:
    """One thing measured: nanoseconds of each contender for one unit, or bytes where the unit is a byte."""

    operation: str
    family: str
    parameters: str
    unit: str
    bytes: float
    ns: dict = field(default_factory=dict)

    def ratio(self, contender):
        """The archive's time over the contender's; below 1 the archive is faster."""
        return self.ns[ARCHIVE] / self.ns[contender]

    def value(self, name):
        """The number of a parameter, as of n in `U=44 n=8`."""
        return int(dict(pair.split("=") for pair in self.parameters.split())[name])

    @property
    def is_size(self):
        return self.unit == "byte"

    @property
    def is_growth(self):
        return self.family.startswith(GROWTH)


def read(path):
    """The measurements in the order of the file."""
    found = {}
    with open(path, newline="") as file:
        for row in csv.DictReader(file):
            key = (row["operation"], row["family"], row["parameters"])
            if key not in found:
                found[key] = Measurement(*key, row["unit"], float(row["bytes"]))
            found[key].ns[row["contender"]] = float(row["ns"])
    return list(found.values())


def ratios(measurements, contender):
    return [m.ratio(contender) for m in measurements if contender in m.ns]


def geometric_mean(values):
    return math.exp(sum(map(math.log, values)) / len(values))
