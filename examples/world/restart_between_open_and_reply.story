device adapter adapter.profile
device scanner first.profile

# a scanner restarts between its request and the reply
scanner opens adapter
scanner back 0
adapter forth 0
adapter forth 0
scanner back 0
scanner start 0
adapter forth 0
scanner restarts 33
# the reply reaches nobody: it was for the first life, and on the next stream there is none
scanner back 0
scanner opens adapter
scanner back 1
adapter forth 1
adapter forth 1
scanner back 1
scanner back 1
# the first request of the next life is refused, since the connection of the first one has its triad
scanner start 0
adapter forth 1
scanner back 1
# the next one is not, since that connection has timed out
adapter tick 10000
scanner tick 3000
adapter forth 1
scanner back 1
