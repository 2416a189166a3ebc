device adapter ../../first_open.trace
