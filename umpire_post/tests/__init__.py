"""Tests of the post: `python3 -m unittest discover -s umpire_post/tests -t .` at the top of the
repository. UMPIRE and UMPIRE_DESK name the programs."""
