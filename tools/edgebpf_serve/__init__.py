"""edgebpf-serve: a graph over HTTP that keeps on disk what it acknowledged. docs/SERVICE.md is its document."""
