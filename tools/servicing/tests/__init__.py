"""The tests of tools/service, which `dev/check service` runs."""
