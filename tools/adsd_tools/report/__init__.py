"""What `tools/adsd-report` is made of: a directory's rights and the front of its propagation as a page. Not proved."""
