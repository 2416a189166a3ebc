# ä
device adapter ../adapter.profile
adapter read ä
