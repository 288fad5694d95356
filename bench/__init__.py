"""What measures the program and the front."""
