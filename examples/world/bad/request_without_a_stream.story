device adapter ../adapter.profile
adapter request 192.168.1.20 0100
