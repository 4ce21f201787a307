"""The explorer of rights: tools/adsd-explore."""
