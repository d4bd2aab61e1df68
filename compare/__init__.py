"""What compares the built programs with a JDK: its javac, its javap and its verifier."""
