"""Starts `cube`: python3 tools/cube/__main__.py WORDS.."""
import os
import sys

sys.path[0:1] = [os.path.dirname(os.path.dirname(os.path.realpath(__file__)))]

from cube.cli import main

main()
