"""L6, written a second time: from the pages of its manual alone, plain and slow. README.md tells why."""
