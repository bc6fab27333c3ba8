"""Tests of the judge, and what they share."""
