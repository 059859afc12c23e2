a-president-is-bankrupt a-president-is-bankrupt --due Sunday
