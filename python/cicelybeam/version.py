"""The version that records and reports name."""

VERSION = "0.1.0"
