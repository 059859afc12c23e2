first-round first-round --due=
