priority 10.255.1.1 64

ineligible 10.255.1.4 192.0.2.13
