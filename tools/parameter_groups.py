#!/usr/bin/env python3
"""Lists groups of parameters that stand next to each other in the signatures of three functions or more."""
import collections
import glob
import re

counts = collections.Counter()
for path in glob.glob("crates/*/src/**/*.rt", recursive=True):
    with open(path) as file:
        for signature in re.finditer(r"fn \w+(?:<[^>]*>)?\(([^)]*)\)", file.read()):
            names = tuple(re.findall(r"(\w+): [^,\n]+", signature.group(1)))
            for start in range(len(names)):
                for end in range(start + 2, len(names) + 1):
                    counts[names[start:end]] += 1
for names, count in counts.most_common():
    if count >= 3:
        print(count, ", ".join(names))
