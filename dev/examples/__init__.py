"""The tests of examples/, whose programs are for users: `dev/check worker` runs them."""
