"""Tests of the client and of from_logs.py. scripts/trial client runs them."""
