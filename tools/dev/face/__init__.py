"""What `tools/dev/interface.py` writes and checks by the tables embed/interface.toml and embed/interface_rules.toml."""
