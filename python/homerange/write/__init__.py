"""What is written of ranges: tables, layers, pictures, the page, and the folder of evidence."""
