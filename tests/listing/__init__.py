"""What `typestock` answers, said by listing words and typed trees from the definition."""
