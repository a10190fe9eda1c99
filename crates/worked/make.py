#!/usr/bin/env python3
"""Writes data/ and stdout of this crate: the steps of each part, and what the reference answers to them, one part after another.

    make.py

A part is a file of steps, `data/PART`, which `cases/PART.py` gives, `src/` takes and `driver/` answers.
"""
import os, sys
sys.dont_write_bytecode = True
from cases import by_reference, differences, fits, networks, references, trees

PARTS = {
    'differences': differences.STEPS,
    'networks': networks.STEPS,
    'trees': trees.STEPS,
    'references': references.STEPS,
    'fits': fits.STEPS,
}
by_reference.write(os.path.dirname(os.path.abspath(__file__)), PARTS)
