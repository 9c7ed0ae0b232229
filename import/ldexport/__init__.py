"""Exports course folders as content packages of IMS Learning Design."""
