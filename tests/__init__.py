"""Unit tests of the scripts: of what decides."""
