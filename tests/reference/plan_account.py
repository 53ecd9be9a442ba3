#!/usr/bin/env python3
"""The reference of plan_account:  plan_account.py < SHEET"""

import sys

sys.dont_write_bytecode = True

import files
import planner

if __name__ == "__main__":
    sys.exit(files.command(planner.account_answer))
