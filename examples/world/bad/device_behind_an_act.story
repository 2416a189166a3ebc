device adapter ../adapter.profile
adapter read 150
device first ../first.profile
