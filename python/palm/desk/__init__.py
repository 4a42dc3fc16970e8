"""palm desk: a page on the own machine that shows a session's domains, and why a value is gone."""
