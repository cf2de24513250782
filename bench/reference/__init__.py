"""A plain program that computes what mrt does, written apart from it."""
