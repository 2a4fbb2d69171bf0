"""Checks of impose-web."""
