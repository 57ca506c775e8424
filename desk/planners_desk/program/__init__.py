"""The program acquire: where it is, what is said to it, and a case in its terms."""
