#!/usr/bin/env python3
"""Writes rows of the type checker as rows for the stored run of crates/set_vectors.

    python3 bench/type_rows.py ANSWERS INDICES

ANSWERS has a line for each row, as `profile CLASS MEMBER Type KIND` or `ok`, and INDICES the number of the instruction at
fault, or `-`. Lines that begin with `#` stand in both and are kept. Standard output has the answers as the program gives
them: those of the type checker end with the index.
"""
import sys

with open(sys.argv[1], encoding='utf-8') as answers, open(sys.argv[2], encoding='utf-8') as indices:
    for answer, index in zip(answers, indices):
        answer, index = answer.rstrip('\n'), index.rstrip('\n')
        print(answer if answer.startswith('#') or index == '-' else f'{answer} {index}')
