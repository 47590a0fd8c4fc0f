"""The desk: orders as text, plans and refusals in words, and the sheet that goes out, over the proved library."""
