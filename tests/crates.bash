# Sourced by the tests that go through the crates.

# listed: the crates of this repository, by crates.txt. What stands there below a line '# your own' is a user's, and no test looks at it.
listed() { awk '/^# your own/ { exit } /^[a-z0-9_]+:/ { sub(/:.*/, ""); print }' crates.txt; }
