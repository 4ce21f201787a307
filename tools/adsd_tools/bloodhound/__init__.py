"""A store as BloodHound CE reads it, with edges that the proved library answers. Not proved."""
