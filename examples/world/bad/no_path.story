device adapter
