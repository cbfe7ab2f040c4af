"""The search for proofs: symbolic heaps, their entailment, and execution forwards."""
