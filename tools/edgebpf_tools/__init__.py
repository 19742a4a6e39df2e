"""What the companions beside edgebpf are made of."""
