"""Imports content packages of IMS Learning Design as course folders."""
