"""Two filters compared: the requests that their rules and conditions can tell apart."""
