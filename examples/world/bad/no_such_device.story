device adapter ../adapter.profile
adapter read 150
tenth takes 0
