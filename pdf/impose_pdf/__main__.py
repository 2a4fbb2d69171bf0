"""Runs the program, which pip calls by the name that its project has."""

import os
import sys

from impose_pdf.program import main


def run() -> None:
    """Ends with the program's exit status, at once: to take a large PDF apart takes a tenth of the time."""
    os._exit(main(sys.argv[1:], os.path.dirname(os.path.abspath(sys.argv[0]))))


if __name__ == "__main__":
    run()
