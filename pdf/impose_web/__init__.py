"""A page to look at: sheets as they will be printed, in the browser, while one chooses."""
