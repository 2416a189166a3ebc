# one scanner twice
device adapter ../adapter.profile
device first ../first.profile
device again ../first.profile
