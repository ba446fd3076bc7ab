import sys

from rekwonuda.intake.command import main

# The processes of a local cluster import this module too, and must not run it.
if __name__ == "__main__":
    sys.exit(main())
