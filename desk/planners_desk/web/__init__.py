"""`desk web`: a case, its questions and rules as pages in the browser, on this machine alone."""
