"""What the scripts share: each notion once."""
