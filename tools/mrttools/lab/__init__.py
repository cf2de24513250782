"""The network on one machine: routers in namespaces, what fails and changes, and what came of it."""
