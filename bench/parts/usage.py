"""What the scripts of bench/ begin with: where the repository lies, whose modules in tools/ can be
imported after this one, and what they read of their words: the text of `--help`, which is the one
that a script begins with, and the words of a search by seeds."""
import argparse
import os
import subprocess
import sys

TOP = os.path.dirname(os.path.dirname(os.path.dirname(os.path.abspath(__file__))))
sys.path[1:1] = [os.path.join(TOP, "tools"), os.path.join(TOP, "tools", "documents")]


def tell_usage(text):
    """Ends the program with the text, where that is asked for."""
    if sys.argv[1:] == ["--help"]:
        print(text, end="")
        sys.exit()


def search_of(text, count):
    """What `[-n COUNT] [-s SEED] [-j JOBS] [PROGRAM]` say, with this count unless another is said;
    the program is built then."""
    reader = argparse.ArgumentParser(usage=text.split("usage: ")[1])
    reader.add_argument("-n", dest="count", type=int, default=count)
    reader.add_argument("-s", dest="seed", type=int, default=1)
    reader.add_argument("-j", dest="jobs", type=int, default=2)
    reader.add_argument("program", nargs="?", default="./hosed")
    options = reader.parse_args()
    options.program = os.path.abspath(options.program)
    subprocess.run([options.program, "--version"], stdout=subprocess.DEVNULL, check=True)
    return options
