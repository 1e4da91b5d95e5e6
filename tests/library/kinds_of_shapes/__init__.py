"""Shapes of Pascal texts, by what they are much of."""
