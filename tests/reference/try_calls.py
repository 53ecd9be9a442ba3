#!/usr/bin/env python3
"""The reference of try_calls:  try_calls.py < SCRIPT"""

import sys

sys.dont_write_bytecode = True

import calls
import files

if __name__ == "__main__":
    sys.exit(files.command(calls.answer, most=-1))
