# The panel: it reads the inputs of the four valve islands.
scanner 1 127.0.1.102 0 1002 1000 1000
slot 127.0.1.1 input - 152 100 0 2 10000 10000 2 multicast - -
slot 127.0.1.2 input - 152 100 0 2 10000 10000 2 multicast - -
slot 127.0.1.3 input - 152 100 0 2 10000 10000 2 multicast - -
slot 127.0.1.4 input - 152 100 0 2 10000 10000 2 multicast - -
