"""The client package for Java, clients/java, with its tests, which JUnit runs."""
