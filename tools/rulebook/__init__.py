"""The rulebook: what the claims of the umpire and the desk rest on, in the order of the game. `tools/claim` writes it."""
