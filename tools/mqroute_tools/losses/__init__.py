"""What changes between two outputs for one script: who loses what, why, and by which lines."""
