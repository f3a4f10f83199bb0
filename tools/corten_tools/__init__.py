"""What the programs beside this folder share. Nothing proved depends on it."""
