"""The shapes of stores over which scripts are run that have to come to the same."""

# Pairs of the number of partitions and the page size in bytes.
SHAPES = [(4, 4096), (1, 4096), (3, 4096), (64, 4096), (3, 1024), (3, 2048), (3, 8192), (3, 16384)]
