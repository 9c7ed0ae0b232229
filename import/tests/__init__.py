"""Tests of the importer and the exporter; `import/test` runs them."""
