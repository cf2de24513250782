# 10.255.1.1 is to be the root. Each router not named here has the priority 128.
priority 10.255.1.1 64

# The link from 10.255.1.4 to 10.255.1.5 is paid by use and carries no repairs.
ineligible 10.255.1.4 192.0.2.13
