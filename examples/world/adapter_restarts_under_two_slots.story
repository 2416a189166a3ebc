device adapter wider_adapter.profile
device scanner two_slots.profile

# an adapter restarts while both slots of a scanner go on
scanner opens adapter
scanner back 0
adapter forth 0
adapter forth 0
scanner back 0
scanner start 1
scanner start 0
adapter forth 0
adapter forth 0
scanner back 0
scanner back 0
scanner mode run
scanner write 0 11111111
scanner write 1 22222222
scanner tick 1
adapter takes 0
adapter takes 1
# an incarnation that a life had begins no other life, and 0 begins none
adapter restarts 16
adapter restarts 32
adapter restarts 0
adapter read 150
# with another one it restarts: what the slots send on changes nothing
adapter restarts 17
scanner tick 9
adapter takes 2
adapter takes 3
adapter read 150
# the stream of its first life has ended, for the scanner alone
adapter forth 0
scanner back 0
# both slots time out, and open again in the other order
scanner opens adapter
scanner back 1
adapter forth 1
adapter forth 1
scanner back 1
scanner tick 9990
scanner tick 3000
adapter forth 1
adapter forth 1
scanner back 1
scanner back 1
scanner tick 1
adapter takes 4
adapter takes 5
# what the second slot sent before has the number of the connection that the first slot has now, but not its incarnation
adapter takes 3
adapter read 150
adapter read 160
