priority 1.1.1.1 10
# again

priority	1.1.1.1  20