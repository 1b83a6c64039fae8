"""Cases of the test program: how each of their lines is told to it as calls, and how its answers are read."""
