"""The claims of the program: the sentences of docs/developers/proof.md, each with the contracts that state it."""
from __future__ import annotations

import re
from dataclasses import dataclass

MARKED = re.compile(r'<!-- Clauses of the claims. -->\n(.*?)<!-- End of the clauses. -->', re.S)
CLAUSE = re.compile(r'`(\w+: \w+)`')
# The claims of the umpire. Those behind them are of the desk.
UMPIRE = ('run', 'certs', 'verify', 'migrate')


@dataclass
class Claim:
    """A claim: its title, and the functions, as `crate: name`, whose contracts state its sentences."""
    title: str
    contracts: list[str]

    def is_umpires(self) -> bool:
        return self.title.startswith(tuple('`%s`' % word for word in UMPIRE))


def read_claims(page: str) -> list[Claim]:
    """Returns the claims of the table of sentences and clauses of a page. A row without a title is of the claim above it. Fails if there
    is no such table, or if a row names no clause."""
    marked = MARKED.search(page)
    if not marked:
        raise ValueError('proof.md has no table of sentences and clauses')
    claims: list[Claim] = []
    for line in [line for line in marked.group(1).split('\n') if line.startswith('|')][2:]:
        title, sentence, clauses = (cell.strip() for cell in line.strip('|').split('|'))
        if title:
            claims.append(Claim(title, []))
        named = CLAUSE.findall(clauses)
        if not claims or not named:
            raise ValueError('proof.md: no clause states "%s"' % sentence)
        claims[-1].contracts += [name for name in named if name not in claims[-1].contracts]
    return claims
