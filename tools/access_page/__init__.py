"""What tools/access-page draws: what a name sees of an area, what a reader should look at, and the page."""
