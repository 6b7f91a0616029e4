"""A program that runs a real collector beside this project's agent: tools/collector. docs/COLLECTOR.md says what it does."""
