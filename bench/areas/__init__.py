"""The makers of areas."""
