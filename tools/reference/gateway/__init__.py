"""The reference of the gateway: HTTP's rules and the tier as one value, sans I/O."""
