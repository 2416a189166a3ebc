device adapter ../adapter.profile
device adapter ../first.profile
