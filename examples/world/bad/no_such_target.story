device adapter ../adapter.profile
adapter opens tenth
