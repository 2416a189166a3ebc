# another scanner at its address
device adapter ../adapter.profile
device first ../first.profile
device neighbour neighbour.profile
