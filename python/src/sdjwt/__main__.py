"""`python3 -m sdjwt` is the program sdjwt-keys."""
import sys

from sdjwt._program import main

if __name__ == "__main__":
    sys.exit(main())
