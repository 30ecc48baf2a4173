"""Tests of tools/, with what they share. `python3 -m unittest discover -s tools` runs them; the
modules of tools/ are known to them by that, and those of tools/documents/ by what stands here."""
import os
import sys

sys.path.append(os.path.join(os.path.dirname(os.path.abspath(__file__)), "..", "documents"))
