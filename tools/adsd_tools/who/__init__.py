"""The answers of `token`, `who`, `can`, `rights` and `diff` with names and the entries that decide, as JSON, CSV or a table. Not proved."""
