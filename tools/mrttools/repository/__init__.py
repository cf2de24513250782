"""The pages of this repository: definitions and contracts read from the sources, and commands run. It is not installed."""
