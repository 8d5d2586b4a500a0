"""Computes expressions over the definitions in crates/*/specs, for docs/evaluate."""
