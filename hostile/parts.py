"""The arguments of each part: an executable, and what the part adds."""
import argparse
import os


def executable(path):
    """The whole path of an executable."""
    whole = os.path.abspath(path)
    if not os.path.isfile(whole) or not os.access(whole, os.X_OK):
        raise argparse.ArgumentTypeError(f'{path} is no executable')
    return whole


def parser_of(text):
    """A parser of PROGRAM, whose help is the text."""
    parser = argparse.ArgumentParser(description=text, formatter_class=argparse.RawDescriptionHelpFormatter)
    parser.add_argument('program', type=executable)
    return parser
