"""Forms of bytes and texts that several companions read and write: identifiers, descriptors, names, BER, filters."""
