#!/usr/bin/env python3
"""Prints the files of proofs by hand (README.md here). Run it in the repository's folder."""
import os, sys
sys.path.insert(0, os.path.dirname(os.path.abspath(__file__)))
import text, calls

def main(a):
    if a[0] == 'values': text.values(a[1], a[2:])
    elif a[0] == 'calls': calls.print_rules(a[1], a[2].split(','), a[3] if len(a) > 3 else a[1].split('::')[0])
    elif a[0] == 'byvalue': calls.by_value(a[1], a[2:])
    elif a[0] == 'walk':
        import walk
        for f in a[1:]: walk.print_walk(f)
main(sys.argv[1:])
