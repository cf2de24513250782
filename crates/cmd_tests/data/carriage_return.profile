priority 3.3.3.3 10
