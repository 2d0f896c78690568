"""A second opinion on the replay desk, written from its rules alone: it works out from files what a command must have written."""
