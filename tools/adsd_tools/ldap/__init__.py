"""What `tools/adsd-ldap` is made of: LDAP for clients, frames for one `adsd serve`. Not proved."""
