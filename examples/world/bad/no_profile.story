device adapter ../none.profile
