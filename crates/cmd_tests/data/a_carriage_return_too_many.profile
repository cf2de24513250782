no-mrt 1.1.1.1
no-mrt 2.2.2.2
