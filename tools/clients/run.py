"""Runs the groups of cases that are named, or all, on the program that is named first."""
import os
import sys

import curl_cases
import fault_cases
import limit_cases
import other_cases
import process_cases
import python_cases
import socket_cases
from serving import Cases

GROUPS = {"curl": curl_cases, "python": python_cases, "sockets": socket_cases, "process": process_cases, "faults": fault_cases, "others": other_cases, "limits": limit_cases}


def main(program, names):
    unknown = [name for name in names if name not in GROUPS]
    if unknown:
        sys.exit(f"no group {', '.join(unknown)}; there are {', '.join(GROUPS)}")
    cases = Cases(os.path.abspath(program))
    for name in names or GROUPS:
        GROUPS[name].run(cases)
    return cases.status()


if __name__ == "__main__":
    sys.exit(main(sys.argv[1], sys.argv[2:]))
