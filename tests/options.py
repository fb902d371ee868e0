"""What the command lines of the programs have in common."""

import argparse
import pathlib

ROOT = pathlib.Path(__file__).resolve().parent.parent
SEED = 1


def parser(description):
    """With the option --seed."""
    options = argparse.ArgumentParser(description=description)
    options.add_argument("--seed", type=int, default=SEED, help="of what is drawn")
    return options
