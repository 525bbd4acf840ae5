#!/usr/bin/env python3
"""check.py FOLDER NAME..: the text that Lanternrung wrote (NAME.written) has the same values as the text NAME, digit for digit."""
import json
import os
import sys
from decimal import Decimal


def values(path):
    with open(path, encoding="utf-8") as f:
        return json.load(f, parse_float=Decimal, parse_int=Decimal, object_pairs_hook=lambda pairs: pairs)


folder, names = sys.argv[1], sys.argv[2:]
for name in names:
    path = os.path.join(folder, name)
    if values(path) != values(path + ".written"):
        sys.exit(f"{name}: what was written has other values")
