"""The makers of the files that tests read, and the answers that the reference program computes."""
