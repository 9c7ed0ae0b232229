"""Web pages and an HTTP interface over the run engine `ld`."""
