# The controller: it owns the outputs of four valve islands (slots 0 to 3) and of three drives (slots 4 to 6), every 10 ms.
scanner 1 127.0.1.101 0 1001 1000 1000
slot 127.0.1.1 exclusive - 150 100 2 2 10000 10000 2 multicast - -
slot 127.0.1.2 exclusive - 150 100 2 2 10000 10000 2 multicast - -
slot 127.0.1.3 exclusive - 150 100 2 2 10000 10000 2 multicast - -
slot 127.0.1.4 exclusive - 150 100 2 2 10000 10000 2 multicast - -
slot 127.0.1.11 exclusive - 150 100 4 8 10000 10000 2 multicast - -
slot 127.0.1.12 exclusive - 150 100 4 8 10000 10000 2 multicast - -
slot 127.0.1.13 exclusive - 150 100 4 8 10000 10000 2 multicast - -
