"""What measures the built program and computes beside it. Scripts run as modules at the top of the repository: python3 -m bench.measure.compare."""
