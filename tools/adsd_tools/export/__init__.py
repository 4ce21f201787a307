"""What `tools/adsd-export` is made of: a domain of a server becomes a file that `adsd-import` takes. Not proved."""
