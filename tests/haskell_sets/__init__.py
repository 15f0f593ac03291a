"""Random sets of Haskell modules, and what GHC says of them."""
