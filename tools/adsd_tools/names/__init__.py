"""The names of accounts of a store, and the filter that puts them behind identifiers. Not proved."""
