#!/usr/bin/env python3
"""The reference of sheet_banks:  sheet_banks.py < FILE"""

import sys

sys.dont_write_bytecode = True

import files
import sheets

if __name__ == "__main__":
    sys.exit(files.command(sheets.answer))
