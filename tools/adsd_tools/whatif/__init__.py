"""What `tools/adsd-whatif` is made of: what frames change, as answers of the program on copies of a store. Not proved."""
