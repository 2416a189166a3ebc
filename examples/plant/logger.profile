# The logger: it reads the inputs of the three drives.
scanner 1 127.0.1.103 0 1003 1000 1000
slot 127.0.1.11 input - 152 100 0 8 10000 10000 2 multicast - -
slot 127.0.1.12 input - 152 100 0 8 10000 10000 2 multicast - -
slot 127.0.1.13 input - 152 100 0 8 10000 10000 2 multicast - -
