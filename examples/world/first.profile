# A scanner at 192.168.1.20, with an open timeout of 2,000 ms and a retry delay of 3,000 ms.
scanner 32 192.168.1.20 4660 305419896 2000 3000
slot 192.168.1.10 exclusive 151 150 100 4 4 10000 10000 2 p2p - -
