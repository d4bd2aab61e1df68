"""What a contributor or the gate calls, and what all scripts share."""
