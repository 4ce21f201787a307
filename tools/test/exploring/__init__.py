"""The parts of tools/test/explore."""
