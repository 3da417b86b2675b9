"""What the pages of reference are made of: sources of Rattle, definitions, files."""
