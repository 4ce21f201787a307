"""What stands in a store's rows: its objects, its schema, and its accounts. Rows are read, and never written."""
