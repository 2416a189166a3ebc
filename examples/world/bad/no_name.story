device device ../adapter.profile
