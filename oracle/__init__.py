"""What class files, schedules and runs mean, read once more in plain Python by the rules: the oracle of the cases."""
