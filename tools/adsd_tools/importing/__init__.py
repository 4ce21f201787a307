"""What `tools/adsd-import` is made of: exports of directories become LDIF that `adsd load` takes. Not proved."""
