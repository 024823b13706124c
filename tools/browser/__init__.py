"""The page over the program: a desk is one store's session, and the server shows it to browsers."""
