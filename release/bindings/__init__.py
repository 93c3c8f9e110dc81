"""The parts of release/bindings."""
