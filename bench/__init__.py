"""What times the built programs and weighs their memory."""
