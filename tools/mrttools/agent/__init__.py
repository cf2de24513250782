"""What keeps a router's tables: the kernel, the daemon's LSAs, and the loop that puts the one after the other."""
