"""What the tools for operators share: LSAs and captures, areas and certificates, the program, files, and how a tool ends.

What stands on it is in packages: `router` has what a router installs, `agent` what keeps it, `lab` the network on one
machine, `page` reports and pictures, `repository` the pages of this repository. All stand on Debian's packages and on
the built program, and on nothing in `bench`.
"""
