"""How good the tables of bwe are beside linear programs, on known and on made networks."""
