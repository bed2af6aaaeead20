"""python3 -m zilqumet batch: many pages at once."""

import sys

from .batch import main

if __name__ == "__main__":
    sys.exit(main())
