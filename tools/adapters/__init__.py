"""Adapters: each makes of the log of another simulator a claim for ./referee. README.md is their page."""
