# an adapter of incarnation 0
device adapter incarnation_0.profile
