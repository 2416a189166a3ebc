device adapter counted_adapter.profile
device scanner two_slots.profile

# an adapter whose profile states its connection ids restarts twice, each time with its incarnation
scanner opens adapter
scanner back 0
adapter forth 0
adapter forth 0
scanner back 0
scanner start 1
scanner start 0
adapter forth 0
adapter forth 0
scanner back 0
scanner back 0
scanner mode run
scanner write 0 11111111
scanner write 1 22222222
scanner tick 1
adapter takes 0
adapter takes 1
# the first life has given two ids, and the second one gives none; the third one has ids behind the first of the second
adapter restarts 16
adapter restarts 16
scanner tick 9
adapter takes 2
adapter takes 3
adapter read 150
# the stream of its first life has ended, for the scanner alone
adapter forth 0
scanner back 0
# both slots time out, and open again in the other order
scanner opens adapter
scanner back 1
adapter forth 1
adapter forth 1
scanner back 1
scanner tick 9990
scanner tick 3000
adapter forth 1
adapter forth 1
scanner back 1
scanner back 1
scanner tick 1
adapter takes 4
adapter takes 5
# what the second slot sent in the first life is for no connection of the third: no output takes that of the other
adapter takes 3
adapter read 150
adapter read 160
