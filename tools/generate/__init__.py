"""The parts of tools/generate."""
