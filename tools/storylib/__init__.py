"""A run of `desk`, told in words and drawn, from its input and its answers alone."""
