"""Tests of the tools for operators; tools/test runs them."""
