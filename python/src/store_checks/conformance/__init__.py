"""The conformance kit: dialogues between clients and servers. tests/conformance/README.md tells of it."""
