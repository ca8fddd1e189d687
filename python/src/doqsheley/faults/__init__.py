"""Where the first fault of a market or of a script is: `reader.read`, `reader.located`."""
