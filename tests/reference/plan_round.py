#!/usr/bin/env python3
"""The reference of plan_round:  plan_round.py < SHEET"""

import sys

sys.dont_write_bytecode = True

import files
import planner

if __name__ == "__main__":
    sys.exit(files.command(planner.listing_answer))
