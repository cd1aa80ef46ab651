"""What the tools are made of, by subject. Each folder imports from those before it: `common`,
`plain`, `script`, then `log`, `plan` and `live`, which don't import from each other, then `losses`,
which stands on `plan`, `why`, which stands on `log`, and `search`, which stands on `live`."""
