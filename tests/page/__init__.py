"""The page: its server, and both forms of it in browsers."""
