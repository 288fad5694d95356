"""Tools of the repository: what looks at its code, proofs and documents."""
