"""`python3 -m umpire_post` is the command line."""

import sys

from umpire_post.commands import main

sys.exit(main(sys.argv[1:]))
