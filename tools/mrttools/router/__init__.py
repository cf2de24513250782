"""What a router installs: next hops as addresses, prefixes, routes, rules and marks."""
