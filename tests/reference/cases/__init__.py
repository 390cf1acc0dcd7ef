"""The reference's own tests."""
