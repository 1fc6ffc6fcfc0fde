"""What the tests share: an office of real parts, its callers, a browser."""
