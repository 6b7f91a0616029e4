"""What `tools/operator` is made of: a program for people who look at a fleet and order through its servers' ports for operators."""
