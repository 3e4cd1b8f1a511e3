"""Tests of the desk's tool: scripts/desk-tests runs them."""
