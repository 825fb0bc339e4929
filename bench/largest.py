#!/usr/bin/env python3
"""Writes the largest table to standard output: 8 modules, 8 events, 512 states, 26,639 bytes."""
import pathlib
import random
import sys

sys.dont_write_bytecode = True
sys.path.insert(0, str(pathlib.Path(__file__).resolve().parent.parent / "tests"))
from tables import Table

sys.stdout.buffer.write(Table(random.Random(512), 8, 8, 512).written())
