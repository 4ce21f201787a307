"""What tools/adsd-replica is made of."""
