"""A plan by which topics are renamed: what becomes of topics, filters, access lists and scripts."""
