"""The parser of sources that `tools/check` and `tools/write_api` share."""
