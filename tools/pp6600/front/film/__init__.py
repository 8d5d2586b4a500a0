"""The film: a run as one web page."""
